//! The maze as a graph for the program dot: outlines tell who wins, and secret corridors are dashed.

use super::board::End;
use super::Asked;
use crate::output::Out;
use crate::trouble::Outcome;
use foldheron::Room;

pub fn told(asked: &Asked, out: &mut Out) -> Outcome<()> {
    out.line("digraph maze {")?;
    for (n, place) in asked.board.places.iter().enumerate() {
        let outline = match (place.room, place.end) {
            (Room::Dungeon, _) => "shape=box3d",
            (_, End::Wins) => "shape=box, style=rounded",
            (_, End::Loses) => "shape=box",
            (_, End::Draws) => "shape=hexagon",
        };
        let wide = if matches!(place.room, Room::Signal(_)) { ", penwidth=2" } else { "" };
        let sees = asked.sees(place.room).map_or(String::new(), |signal| format!("\\nfor {}", signal));
        out.line(&format!("  \"{}\" [{}{}, label=\"{}{}\\n{}\"];", asked.id(n), outline, wide, asked.what(place.room), sees, place.end.word()))?;
    }
    for (n, place) in asked.board.places.iter().enumerate() {
        for way in &place.ways {
            let style = if way.visible { "" } else { " [style=dashed]" };
            out.line(&format!("  \"{}\" -> \"{}\"{};", asked.id(n), asked.id(way.to), style))?;
        }
    }
    out.line("}")
}
