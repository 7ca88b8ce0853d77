//! The maze for a person: whose rooms win, lose and draw; every room with its corridors; a play move by move.

use super::board::End;
use super::play::{self, Play};
use super::Asked;
use crate::files;
use crate::output::Out;
use crate::sets::listed;
use crate::table::{Column, Side, Table};
use crate::trouble::Outcome;
use crate::walk::counted;

pub fn whole(asked: &Asked, out: &mut Out) -> Outcome<()> {
    out.line(&format!("{}, {}: the maze of the first instant has {}", files::shown(&asked.block.path), asked.given(), size(asked)))?;
    signals(asked, out)?;
    out.line("the corridors: --> is visible, and the other is to move; ~~> is secret, and who took it moves on; * is the move to make, which wins or alone keeps the draw")?;
    for (n, place) in asked.board.places.iter().enumerate().filter(|(_, place)| !place.ways.is_empty()) {
        out.line(&format!("{} {}", asked.name(n), place.end.word()))?;
        for (k, way) in place.ways.iter().enumerate() {
            let best = if asked.board.marked(n) == Some(k) { "*" } else { " " };
            let arrow = if way.visible { "-->" } else { "~~>" };
            out.line(&format!("  {} {} {}, which {}", best, arrow, asked.name(way.to), asked.board.places[way.to].end.word()))?;
        }
    }
    let without: Vec<String> = (0..asked.board.places.len()).filter(|n| asked.board.places[*n].ways.is_empty()).map(|n| asked.name(n)).collect();
    out.line(&format!("without a corridor, so that who is to move there has lost: {}", listed(&without)))
}

/// How many rooms and corridors there are, and how many rooms are left out.
pub fn size(asked: &Asked) -> String {
    let (rooms, corridors, secret) = (asked.board.places.len() as u64, asked.board.corridors() as u64, asked.board.secret());
    let hidden = match secret {
        0 => "none of them secret".to_string(),
        n => format!("{} of them secret", n),
    };
    let left = asked.left.as_ref().map_or(String::new(), |left| format!("; {} that decide nothing are left out", counted(left.len() as u64, "room")));
    format!("{} and {}, {}{}", counted(rooms, "room"), counted(corridors, "corridor"), hidden, left)
}

fn signals(asked: &Asked, out: &mut Out) -> Outcome<()> {
    let labels = &asked.block.labels;
    let signals = 0..labels.outputs().end;
    let width = signals.clone().map(|n| labels.with_number(n).len()).max().unwrap_or(0).max(6);
    let column = |title, width, side| Column { title, width, side };
    let table = Table::new(vec![column("signal", width, Side::Left), column("its room", 8, Side::Left), column("so it is", 9, Side::Left), column("moves", 5, Side::Right)]);
    out.line(&table.head())?;
    for n in signals {
        let place = &asked.board.places[n];
        let moves = if place.end == End::Draws { "-".to_string() } else { place.moves.to_string() };
        out.line(&table.row(&[&labels.with_number(n), place.end.word(), place.end.status(), &moves]))?;
    }
    Ok(())
}

pub fn play(asked: &Asked, start: usize, out: &mut Out) -> Outcome<()> {
    let place = &asked.board.places[start];
    let play = play::from(&asked.board, start);
    let line = match place.end {
        End::Wins => format!("{} wins: who is to move there wins in {}", asked.name(start), counted(place.moves as u64, "move")),
        End::Loses if place.moves == 0 => format!("{} loses: there is no corridor, and who is to move there has lost", asked.name(start)),
        End::Loses => format!("{} loses: who is to move there loses in {} at most", asked.name(start), counted(place.moves as u64, "move")),
        End::Draws => format!("{} draws: neither can win, and both can go on for ever", asked.name(start)),
    };
    out.line(&line)?;
    if play.moves.is_empty() {
        return Ok(());
    }
    moves(asked, &play, out)?;
    out.line(&ending(asked, &play))
}

fn moves(asked: &Asked, play: &Play, out: &mut Out) -> Outcome<()> {
    let names: Vec<[String; 2]> = play.moves.iter().map(|m| [asked.name(m.from), asked.name(asked.board.places[m.from].ways[m.way].to)]).collect();
    let width = names.iter().flatten().map(String::len).max().unwrap_or(0);
    let column = |title, width, side| Column { title, width, side };
    let table = Table::new(vec![
        column("move", 4, Side::Right), column("who", 8, Side::Left), column("from", width, Side::Left), column("corridor", 8, Side::Left),
        column("to", width, Side::Left), column("", 0, Side::Left),
    ]);
    out.line(&table.head())?;
    for (k, (m, [from, to])) in play.moves.iter().zip(&names).enumerate() {
        let visible = asked.board.places[m.from].ways[m.way].visible;
        let corridor = if visible { "visible" } else { "secret" };
        let otherwise = play::otherwise(&asked.board, m.from, m.way).unwrap_or("the only corridor");
        out.line(&table.row(&[&(k + 1).to_string(), m.who.word(), from, corridor, to, otherwise]))?;
    }
    Ok(())
}

fn ending(asked: &Asked, play: &Play) -> String {
    let (who, there) = (play.who.word(), asked.name(play.last));
    match play.again {
        Some(before) => format!("the {} is to move in {} again, as before move {}: it can go round for ever, and nobody wins", who, there, before + 1),
        None => format!("the {} is to move in {} and cannot: the {} wins", who, there, play.who.other().word()),
    }
}
