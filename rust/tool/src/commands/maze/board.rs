//! The rooms and corridors of a maze, walked by the library's calls from the signals' rooms; and who wins in each, reckoned backwards from the rooms
//! without corridors. Of the signals' rooms the library says it, and the two have to agree.

use super::rooms::id;
use foldheron::{corridor, Corridor, Refusal, Room, Rooms};
use std::collections::HashMap;

#[derive(Clone, Copy, PartialEq, Eq, Debug)]
pub enum End {
    Wins,
    Loses,
    Draws,
}

impl End {
    pub fn word(self) -> &'static str {
        match self {
            End::Wins => "wins",
            End::Loses => "loses",
            End::Draws => "draws",
        }
    }

    /// What the signal of such a room is in the final round.
    pub fn status(self) -> &'static str {
        match self {
            End::Wins => "present",
            End::Loses => "absent",
            End::Draws => "undecided",
        }
    }
}

#[derive(Clone, Copy, PartialEq, Eq, Debug)]
pub struct Way {
    pub visible: bool,
    pub to: usize,
}

pub struct Place {
    pub room: Room,
    pub ways: Vec<Way>,
    pub end: End,
    /// How many moves it takes, played well; 0 of a draw.
    pub moves: usize,
    /// The corridor to take: the shortest way to win, the longest to lose, one that keeps the draw.
    pub best: Option<usize>,
}

/// The signals' rooms come first, by their numbers, where all are there.
pub struct Board {
    pub places: Vec<Place>,
}

impl Board {
    pub fn of(block: &[u8], inputs: u64, signals: usize, told: &Rooms) -> Result<Board, Refusal> {
        let mut board = walked(block, inputs, signals)?;
        board.solve();
        for (n, place) in board.places[..signals].iter().enumerate() {
            let word = [(told.winning, End::Wins), (told.losing, End::Loses), (told.drawn, End::Draws)].iter().find(|(set, _)| set >> n & 1 == 1).map(|(_, end)| *end);
            assert_eq!(word, Some(place.end), "the maze and its corridors disagree on signal {}", n);
        }
        Ok(board)
    }

    /// Who wins in so many moves, then in one more, until a move more decides no room.
    fn solve(&mut self) {
        for moves in 0.. {
            let decided: Vec<(usize, End)> = self.undecided().filter_map(|n| self.decided(n).map(|end| (n, end))).collect();
            if decided.is_empty() {
                break;
            }
            for (n, end) in decided {
                self.places[n].end = end;
                self.places[n].moves = moves;
                self.places[n].best = self.best(n);
            }
        }
        let drawn: Vec<usize> = self.undecided().collect();
        for n in drawn {
            self.places[n].best = self.places[n].ways.iter().position(|way| self.end(way.to) == End::Draws);
        }
    }

    fn undecided(&self) -> impl Iterator<Item = usize> + '_ {
        (0..self.places.len()).filter(move |n| self.places[*n].end == End::Draws)
    }

    fn end(&self, n: usize) -> End {
        self.places[n].end
    }

    /// Whether a corridor wins: a visible one to a losing room, a secret one to a winning room. None where that is open.
    pub fn wins(&self, way: &Way) -> Option<bool> {
        match self.end(way.to) {
            End::Draws => None,
            end => Some((end == End::Loses) == way.visible),
        }
    }

    fn decided(&self, n: usize) -> Option<End> {
        let mut ways = self.places[n].ways.iter().map(|way| self.wins(way));
        if ways.clone().any(|wins| wins == Some(true)) {
            return Some(End::Wins);
        }
        Some(End::Loses).filter(|_| ways.all(|wins| wins == Some(false)))
    }

    /// Of a room that is decided just now: the way to win at once, or the longest to lose.
    fn best(&self, n: usize) -> Option<usize> {
        let place = &self.places[n];
        let open = place.ways.iter().enumerate();
        match place.end {
            End::Wins => open.filter(|(_, way)| self.wins(way) == Some(true)).min_by_key(|(k, way)| (self.places[way.to].moves, *k)).map(|(k, _)| k),
            _ => open.max_by_key(|(k, way)| (self.places[way.to].moves, usize::MAX - *k)).map(|(k, _)| k),
        }
    }

    /// The move that is marked: the shortest way to win, and of a drawn room the corridor that keeps the draw where it is the only one.
    pub fn marked(&self, n: usize) -> Option<usize> {
        let place = &self.places[n];
        let keeps = place.ways.iter().filter(|way| self.end(way.to) == End::Draws).count();
        place.best.filter(|_| place.end == End::Wins || place.end == End::Draws && keeps == 1)
    }

    /// Leaves out every room to which no walk from these leads.
    pub fn keep_from(&mut self, starts: impl IntoIterator<Item = usize>) {
        let mut kept = vec![false; self.places.len()];
        let mut due: Vec<usize> = starts.into_iter().collect();
        while let Some(n) = due.pop() {
            if !std::mem::replace(&mut kept[n], true) {
                due.extend(self.places[n].ways.iter().map(|way| way.to));
            }
        }
        let mut numbers = vec![0; kept.len()];
        for (number, n) in (0..kept.len()).filter(|n| kept[*n]).enumerate() {
            numbers[n] = number;
        }
        let places = std::mem::take(&mut self.places);
        for (place, _) in places.into_iter().zip(&kept).filter(|(_, is_kept)| **is_kept) {
            let ways = place.ways.iter().map(|way| Way { to: numbers[way.to], ..*way }).collect();
            self.places.push(Place { ways, ..place });
        }
    }

    /// Leaves out the corridors to rooms that are idle, and what only they lead to from these rooms; answers the rooms that are left out. A corridor to an idle
    /// gate loses, so nobody else wins than before, only sooner; moves are counted anew.
    pub fn leave_out(&mut self, starts: &[usize], is_idle: impl Fn(Room) -> bool) -> Vec<Room> {
        let before: Vec<(Room, End)> = self.places.iter().map(|place| (place.room, place.end)).collect();
        for place in &mut self.places {
            place.ways.retain(|way| !is_idle(before[way.to].0));
            (place.end, place.moves, place.best) = (End::Draws, 0, None);
        }
        self.keep_from(starts.iter().copied());
        self.solve();
        let (kept, left): (Vec<_>, Vec<_>) = before.into_iter().partition(|(room, _)| self.find(*room).is_some());
        let now = self.places.iter().map(|place| (place.room, place.end));
        assert!(now.eq(kept.into_iter()), "who wins depends on a room that is left out");
        left.into_iter().map(|(room, _)| room).collect()
    }

    pub fn corridors(&self) -> usize {
        self.places.iter().map(|place| place.ways.len()).sum()
    }

    pub fn secret(&self) -> usize {
        self.places.iter().flat_map(|place| &place.ways).filter(|way| !way.visible).count()
    }

    pub fn find(&self, room: Room) -> Option<usize> {
        self.places.iter().position(|place| place.room == room)
    }
}

/// Room by room, each corridor by its number until there are no more.
fn walked(block: &[u8], inputs: u64, signals: usize) -> Result<Board, Refusal> {
    let mut rooms: Vec<Room> = (0..signals).map(Room::Signal).collect();
    let mut known: HashMap<String, usize> = rooms.iter().enumerate().map(|(n, room)| (id(*room), n)).collect();
    let mut places = Vec::new();
    while let Some(room) = rooms.get(places.len()).copied() {
        let mut ways = Vec::new();
        loop {
            let (visible, to) = match corridor(block, inputs, room, ways.len())? {
                Corridor::Visible(to) => (true, to),
                Corridor::Secret(to) => (false, to),
                Corridor::NoMore | Corridor::NoRoom => break,
            };
            let to = *known.entry(id(to)).or_insert_with(|| {
                rooms.push(to);
                rooms.len() - 1
            });
            ways.push(Way { visible, to });
        }
        places.push(Place { room, ways, end: End::Draws, moves: 0, best: None });
    }
    Ok(Board { places })
}
