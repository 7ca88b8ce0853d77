//! A play from one room in which both play well: who can win takes the shortest way, who cannot the longest; who can only draw stays among drawn rooms.

use super::board::{Board, End};

#[derive(Clone, Copy, PartialEq, Eq, Debug)]
pub enum Who {
    Player,
    Opponent,
}

impl Who {
    pub fn word(self) -> &'static str {
        match self {
            Who::Player => "player",
            Who::Opponent => "opponent",
        }
    }

    pub fn other(self) -> Who {
        match self {
            Who::Player => Who::Opponent,
            Who::Opponent => Who::Player,
        }
    }
}

pub struct Move {
    pub who: Who,
    pub from: usize,
    /// Which corridor of the room.
    pub way: usize,
}

/// The moves, the room in which it ends with who is to move there, and, of a draw, the move before which they were there already.
pub struct Play {
    pub moves: Vec<Move>,
    pub last: usize,
    pub who: Who,
    pub again: Option<usize>,
}

pub fn from(board: &Board, start: usize) -> Play {
    let mut play = Play { moves: Vec::new(), last: start, who: Who::Player, again: None };
    while let Some(way) = board.places[play.last].best {
        play.again = play.moves.iter().position(|m| m.from == play.last && m.who == play.who);
        if play.again.is_some() {
            break;
        }
        play.moves.push(Move { who: play.who, from: play.last, way });
        let taken = board.places[play.last].ways[way];
        play.last = taken.to;
        play.who = if taken.visible { play.who.other() } else { play.who };
    }
    play
}

/// What the other corridors of a room would do for who is to move there.
pub fn otherwise(board: &Board, from: usize, way: usize) -> Option<&'static str> {
    let place = &board.places[from];
    let mut others = place.ways.iter().enumerate().filter(|(k, _)| *k != way).map(|(_, other)| board.wins(other)).peekable();
    others.peek()?;
    let (mut wins, mut draws) = (false, false);
    others.for_each(|other| match other {
        Some(true) => wins = true,
        None => draws = true,
        Some(false) => {}
    });
    match (place.end, wins, draws) {
        (End::Wins, true, _) => Some("not the only way to win"),
        (End::Wins, _, _) => Some("the only way to win"),
        (End::Draws, _, false) => Some("any other way loses"),
        (End::Draws, _, true) => Some("another way draws too"),
        (End::Loses, _, _) => Some("every other way loses too"),
    }
}
