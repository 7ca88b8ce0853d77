//! What the rooms are called: in words, by the statement that they belong to and the signal that sees it; for programs; and which room a word names.

use super::Asked;
use crate::files;
use crate::sets;
use crate::trouble::{Outcome, Trouble};
use foldheron::Room;

/// A room as programs have it.
pub fn id(room: Room) -> String {
    match room {
        Room::Signal(s) => format!("s{}", s),
        Room::Part(i, a) => format!("p{}-{}", i, a),
        Room::Gate(i, a) => format!("g{}-{}", i, a),
        Room::Dungeon => "dungeon".to_string(),
    }
}

impl Asked {
    pub fn id(&self, n: usize) -> String {
        id(self.board.places[n].room)
    }

    pub fn name(&self, n: usize) -> String {
        let room = self.board.places[n].room;
        self.sees(room).map_or_else(|| self.what(room), |signal| format!("{} for {}", self.what(room), signal))
    }

    /// What stands there: a signal, a test's gate, a statement with its number, the dungeon.
    pub fn what(&self, room: Room) -> String {
        match room {
            Room::Signal(s) => self.block.labels.signal(s),
            Room::Part(i, _) => self.statement(i),
            Room::Gate(i, _) => format!("gate of {}", self.statement(i)),
            Room::Dungeon => "dungeon".to_string(),
        }
    }

    /// The signal whose room sees a gate or a part.
    pub fn sees(&self, room: Room) -> Option<String> {
        match room {
            Room::Part(_, a) | Room::Gate(_, a) => Some(self.block.labels.signal(a)),
            _ => None,
        }
    }

    fn statement(&self, i: usize) -> String {
        let s = &self.statements[i];
        let signal = s.operand.map_or(String::new(), |signal| format!(" {}", self.block.labels.signal(signal.into())));
        format!("{}{} ({})", s.kind.name, signal, i)
    }

    /// The tested signal of a gate, and which branch its part is.
    pub fn test(&self, room: Room) -> Option<(String, &'static str)> {
        let i = match room {
            Room::Gate(i, _) => i,
            _ => return None,
        };
        let signal = self.statements[i].operand.map_or(String::new(), |signal| self.block.labels.signal(signal.into()));
        let is_then = self.statements.get(i + 1).map_or(false, |first| first.kind.name != "nothing");
        Some((signal, if is_then { "then" } else { "else" }))
    }

    /// The room that a word names: as it is called, by a gate's or a part's number alone, or as programs have it. A signal of that name goes first.
    pub fn room(&self, word: &str) -> Outcome<usize> {
        let labels = &self.block.labels;
        let parts: Vec<&str> = word.split_whitespace().collect();
        let room = match parts.as_slice() {
            [kind @ ("gate" | "part"), number, "of", signal] => number.parse().ok().zip(labels.find(signal)).map(|(i, a)| match *kind {
                "gate" => Room::Gate(i, a),
                _ => Room::Part(i, a),
            }),
            [signal] => labels.find(signal).map(Room::Signal),
            _ => None,
        };
        let whole = parts.join(" ");
        let known = || (0..self.board.places.len()).find(|n| self.name(*n) == whole || self.id(*n) == whole);
        room.and_then(|room| self.board.find(room)).or_else(known).ok_or_else(|| self.no_room(word))
    }

    fn no_room(&self, word: &str) -> Trouble {
        let labels = &self.block.labels;
        let signals = 0..labels.outputs().end;
        let mut trouble = Trouble::call(format!("the maze has no room '{}'", files::printable(word)));
        trouble.lines.extend(sets::near(word, labels, signals.clone()).map(|near| format!("is {} meant?", near)));
        let all: Vec<String> = signals.map(|n| labels.signal(n)).collect();
        trouble.advise(format!("the signals' rooms: {}; foldheron maze without --room has the others", sets::listed(&all)))
    }
}
