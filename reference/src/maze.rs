//! The maze of the first instant: rooms with visible and secret corridors, and who wins in them.

use std::collections::VecDeque;

use crate::block::{decode, Block, Form, Statement};
use crate::fault::Fault;
use crate::state::{Answer, INPUT};
use crate::values::{signal_bit, signal_bits};

pub const FORM: u16 = 26;

/// A corridor: whether it is visible, and the room that it leads to.
pub type Corridor = (bool, usize);

/// The rooms by number, each as its corridors. Room 0 is the dungeon, which has none; room n + 1 is that of signal n.
pub struct Maze {
    pub rooms: Vec<Vec<Corridor>>,
    signals: usize,
    fault: Fault,
}

#[derive(Clone, Copy, PartialEq, Eq, Debug)]
pub enum End {
    Wins,
    Loses,
    Draws,
}

/// The signals whose rooms win, lose and draw.
pub type Ends = [u64; 3];

/// The call: 1 to 8, 11, then 26; else the ends of the rooms of all inputs and outputs.
pub fn maze(block: &[u8], inputs: u64, fault: Fault) -> (Answer, Ends) {
    let read = match decode(block, Fault::None) {
        Ok(read) => read,
        Err(refusal) => return (Answer { place: refusal.place, ..Answer::refused(refusal.number) }, [0; 3]),
    };
    let input = inputs & !signal_bits(0, read.header.inputs) != 0;
    let form = !of_form(&read.root, fault);
    if form && fault == Fault::FormBeforeInput {
        return (Answer::refused(FORM), [0; 3]);
    }
    if input {
        return (Answer::refused(INPUT), [0; 3]);
    }
    if form {
        return (Answer::refused(FORM), [0; 3]);
    }
    let built = Maze::new(&read, inputs, fault);
    (Answer::default(), built.ends(&built.solve()))
}

/// Emit, parallel, and present with nothing in one branch; nothing stands nowhere else.
pub fn of_form(p: &Statement, fault: Fault) -> bool {
    let idle = |n: usize| p.parts[n].form == Form::Nothing;
    let part = |n: usize| of_form(&p.parts[n], fault);
    match p.form {
        Form::Emit => true,
        Form::Parallel => part(0) && part(1),
        Form::Present if idle(0) && idle(1) => fault == Fault::TwoNothings,
        Form::Present if idle(0) => part(1),
        Form::Present if idle(1) => part(0),
        Form::Present => fault == Fault::TwoParts && part(0) && part(1),
        Form::Nothing => fault == Fault::NothingAnywhere,
        _ => false,
    }
}

impl Maze {
    pub fn new(block: &Block, inputs: u64, fault: Fault) -> Maze {
        let (first, all) = (block.header.inputs, block.header.inputs + block.header.outputs);
        let mut maze = Maze { rooms: vec![Vec::new(); all as usize + 1], signals: all as usize, fault };
        for s in 0..first {
            let present = inputs & signal_bit(s) != 0;
            // Present: a visible corridor to a dungeon. Absent: a dungeon.
            if present != (fault == Fault::InputsTurnedRound) {
                maze.rooms[s as usize + 1] = vec![(true, 0)];
            }
        }
        for a in first..all {
            let seen = maze.corridors(&block.root, a);
            maze.rooms[a as usize + 1] = seen;
        }
        maze
    }

    /// Rooms that somebody else made, to be solved.
    pub fn of(rooms: Vec<Vec<Corridor>>) -> Maze {
        Maze { rooms, signals: 0, fault: Fault::None }
    }

    fn room(&mut self, corridors: Vec<Corridor>) -> usize {
        self.rooms.push(corridors);
        self.rooms.len() - 1
    }

    /// What a statement adds to the room of this signal.
    fn corridors(&mut self, p: &Statement, a: u16) -> Vec<Corridor> {
        match p.form {
            Form::Emit if p.operand == a || self.fault == Fault::EmitInEveryRoom => vec![(true, 0)],
            Form::Parallel if self.fault == Fault::FirstArmOnly => self.corridors(&p.parts[0], a),
            Form::Parallel => {
                let one = self.corridors(&p.parts[0], a);
                [one, self.corridors(&p.parts[1], a)].concat()
            }
            Form::Present => {
                let then = self.tested(p, 0, a);
                [then, self.tested(p, 1, a)].concat()
            }
            _ => Vec::new(),
        }
    }

    /// A test with a then part: a visible corridor to a room with visible ones to the signal's room and to the part; with an else
    /// part the one to the signal's room is secret.
    fn tested(&mut self, p: &Statement, branch: usize, a: u16) -> Vec<Corridor> {
        let part = &p.parts[branch];
        if part.form == Form::Nothing {
            return Vec::new();
        }
        let seen = self.corridors(part, a);
        let (inside, signal) = (self.room(seen), p.operand as usize + 1);
        let visible = branch == 0 || self.fault == Fault::NoSecret;
        let between = self.room(vec![(visible, signal), (true, inside)]);
        let first = self.fault != Fault::SecretFirst;
        vec![(first, between)]
    }

    /// Backwards from the rooms without corridors: a decided room decides those that lead to it, or takes away one of their ways.
    pub fn solve(&self) -> Vec<End> {
        let mut ends = vec![End::Draws; self.rooms.len()];
        let mut left: Vec<usize> = self.rooms.iter().map(|corridors| corridors.len()).collect();
        let mut before: Vec<Vec<(usize, bool)>> = vec![Vec::new(); self.rooms.len()];
        for (room, corridors) in self.rooms.iter().enumerate() {
            corridors.iter().for_each(|&(visible, to)| before[to].push((room, visible)));
        }
        let mut due: VecDeque<usize> = (0..self.rooms.len()).filter(|&room| left[room] == 0).collect();
        due.iter().for_each(|&room| ends[room] = End::Loses);
        while let Some(room) = due.pop_front() {
            for &(from, visible) in &before[room] {
                let wins = visible == (ends[room] == End::Loses);
                left[from] -= 1;
                if ends[from] == End::Draws && (wins || left[from] == 0) {
                    ends[from] = if wins { End::Wins } else { End::Loses };
                    due.push_back(from);
                }
            }
        }
        ends
    }

    /// The same by going over all rooms again and again: who wins or loses in so many moves, until a move more decides no room.
    pub fn solve_by_moves(&self) -> Vec<End> {
        let mut ends = vec![End::Draws; self.rooms.len()];
        loop {
            let wins = |&(visible, to): &Corridor| ends[to] == if visible { End::Loses } else { End::Wins };
            let denies = |&(visible, to): &Corridor| ends[to] == if visible { End::Wins } else { End::Loses };
            let next: Vec<End> = self.rooms.iter().map(|corridors| {
                if corridors.iter().any(wins) {
                    End::Wins
                } else if corridors.iter().all(denies) {
                    End::Loses
                } else {
                    End::Draws
                }
            }).collect();
            if next == ends {
                return ends;
            }
            ends = next;
        }
    }

    /// The signals whose rooms end so.
    pub fn ends(&self, ends: &[End]) -> Ends {
        let such = |end: End| (0..self.signals).filter(|&s| ends[s + 1] == end).fold(0, |all, s| all | signal_bit(s as u16));
        let [wins, loses, draws] = [such(End::Wins), such(End::Loses), such(End::Draws)];
        if self.fault == Fault::DrawsLose { [wins, loses | draws, 0] } else { [wins, loses, draws] }
    }
}
