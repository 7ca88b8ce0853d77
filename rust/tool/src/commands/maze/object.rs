//! The maze, a play, or a refusal, as an object.

use super::board::{End, Place};
use super::play::{self, Who};
use super::rooms::id;
use super::Asked;
use crate::block::Block;
use crate::files;
use crate::json::Object;
use crate::labels::members;
use foldheron::{name_of, Refusal, Room};

fn head(block: &Block, inputs: u64, refusal: u16) -> Object {
    let given: Vec<String> = members(inputs).map(|n| block.labels.input(n)).collect();
    Object::new().text("file", &files::shown(&block.path)).texts("inputs", &given).number("refusal", refusal)
}

pub fn refused(block: &Block, inputs: u64, why: &Refusal, broken: Option<&(usize, String)>) -> String {
    let object = head(block, inputs, why.number).text("name", name_of(why.number).unwrap_or(""));
    match broken {
        Some((statement, wrong)) => object.number("statement", *statement as u64).text("wrong", wrong).done(),
        None => object.done(),
    }
}

pub fn whole(asked: &Asked) -> String {
    let labels = &asked.block.labels;
    let signal = |place: &Place| match place.room {
        Room::Signal(s) => Some(labels.signal(s)),
        _ => None,
    };
    let such = |end: End| asked.board.places.iter().filter(|place| place.end == end).filter_map(signal).collect::<Vec<_>>();
    let object = head(&asked.block, asked.inputs, 0).texts("winning", &such(End::Wins)).texts("losing", &such(End::Loses)).texts("drawn", &such(End::Draws));
    let object = match &asked.left {
        Some(left) => object.texts("left_out", &left.iter().map(|room| id(*room)).collect::<Vec<_>>()),
        None => object,
    };
    object.objects("rooms", (0..asked.board.places.len()).map(|n| room(asked, n)).collect()).done()
}

fn room(asked: &Asked, n: usize) -> Object {
    let place = &asked.board.places[n];
    let mut object = Object::new().text("room", &asked.id(n)).text("called", &asked.name(n));
    if let Room::Part(i, _) | Room::Gate(i, _) = place.room {
        object = object.number("statement", i as u64);
    }
    if let Some((signal, branch)) = asked.test(place.room) {
        object = object.text("tests", &signal).text("branch", branch);
    }
    object = object.text("end", place.end.word());
    object = match (place.end, place.best) {
        (End::Draws, _) => object.null("moves"),
        _ => object.number("moves", place.moves as u64),
    };
    object = match place.best {
        Some(best) => object.number("best", best as u64),
        None => object.null("best"),
    };
    let ways = place.ways.iter().map(|way| Object::new().flag("visible", way.visible).text("to", &asked.id(way.to)));
    object.objects("corridors", ways.collect())
}

pub fn play(asked: &Asked, start: usize) -> String {
    let play = play::from(&asked.board, start);
    let place = &asked.board.places[start];
    let moves = play.moves.iter().map(|m| {
        let way = &asked.board.places[m.from].ways[m.way];
        Object::new().text("who", m.who.word()).text("from", &asked.id(m.from)).flag("visible", way.visible).text("to", &asked.id(way.to))
    });
    let object = head(&asked.block, asked.inputs, 0).text("room", &asked.id(start)).text("end", place.end.word()).objects("moves", moves.collect());
    match play.again {
        Some(before) => object.number("again", before as u64 + 1).null("winner").done(),
        None => object.text("winner", if play.who == Who::Player { "opponent" } else { "player" }).done(),
    }
}
