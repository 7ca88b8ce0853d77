//! Must and can of one instant at statuses that are given, over a block's tree. Only what `why` tells besides the library's answer rests on it; that
//! answer does not.

use crate::walk::Statement;
use std::cell::RefCell;
use std::collections::HashMap;

/// A statement of a good block: its kind's name, its signal or depth, its parts by number, and the pauses in it.
pub struct Node {
    pub name: &'static str,
    pub operand: u16,
    pub parts: Vec<usize>,
    pauses: u128,
}

#[derive(Clone, Copy, PartialEq, Eq, Hash, Debug)]
pub enum Run {
    Started,
    Resumed,
}

/// A statement and how it runs.
pub type Part = (usize, Run);

#[derive(Clone, Copy, PartialEq, Eq, Debug)]
pub enum Status {
    Present,
    Absent,
    Unknown,
}

/// The signals that are present and those that are absent; the others are unknown.
#[derive(Clone, Copy, PartialEq, Eq, Hash, Debug)]
pub struct Event {
    pub present: u64,
    pub absent: u64,
}

impl Event {
    pub fn status(&self, signal: u16) -> Status {
        match (self.present >> signal & 1, self.absent >> signal & 1) {
            (1, _) => Status::Present,
            (_, 1) => Status::Absent,
            _ => Status::Unknown,
        }
    }

    fn with(self, signal: u16, status: Status) -> Event {
        match status {
            Status::Present => Event { present: self.present | 1 << signal, ..self },
            Status::Absent => Event { absent: self.absent | 1 << signal, ..self },
            Status::Unknown => self,
        }
    }
}

/// What must be emitted, and the code that must be given.
#[derive(Clone, Copy)]
struct Must {
    signals: u64,
    code: Option<u32>,
}

/// What can be emitted, and the codes that can be given, bit k for code k.
#[derive(Clone, Copy)]
pub struct Can {
    signals: u64,
    pub codes: u32,
}

/// A block's tree with the pauses that are active as the instant begins.
pub struct Meaning {
    pub nodes: Vec<Node>,
    active: u128,
    /// What is reckoned already: locals inside each other would ask the same again and again.
    musts: RefCell<HashMap<(Part, Event), Must>>,
    cans: RefCell<HashMap<(Part, bool, Event), Can>>,
}

impl Meaning {
    pub fn of(statements: &[Statement], active: u128) -> Meaning {
        let pauses = |n: usize| statements[n].pause.map_or(0, |pause| 1 << pause);
        let node = |n: usize| Node { name: statements[n].kind.name, operand: statements[n].operand.unwrap_or(0), parts: Vec::new(), pauses: pauses(n) };
        let mut nodes: Vec<Node> = (0..statements.len()).map(node).collect();
        let mut above: Vec<usize> = Vec::new();
        for (n, statement) in statements.iter().enumerate() {
            above.truncate(statement.level);
            if let Some(parent) = above.last() {
                nodes[*parent].parts.push(n);
            }
            above.iter().for_each(|m| nodes[*m].pauses |= pauses(n));
            above.push(n);
        }
        Meaning { nodes, active, musts: RefCell::default(), cans: RefCell::default() }
    }

    fn holds(&self, n: usize) -> bool {
        self.nodes[n].pauses & self.active != 0
    }

    /// The branch of a present that is executed: resumed the active one, started the one of a known status.
    pub fn branch(&self, (n, run): Part, e: Event) -> Option<Part> {
        let (then, other) = (self.nodes[n].parts[0], self.nodes[n].parts[1]);
        match (run, e.status(self.nodes[n].operand)) {
            (Run::Resumed, _) => Some((if self.holds(then) { then } else { other }, run)),
            (Run::Started, Status::Present) => Some((then, run)),
            (Run::Started, Status::Absent) => Some((other, run)),
            (Run::Started, Status::Unknown) => None,
        }
    }

    /// The status that decides a suspend: a started one tests nothing, and is as if its signal were absent.
    pub fn held(&self, (n, run): Part, e: Event) -> Status {
        match run {
            Run::Started => Status::Absent,
            Run::Resumed => e.status(self.nodes[n].operand),
        }
    }

    /// What a sequence or a loop begins with, and what follows where that gives 0.
    pub fn stages(&self, (n, run): Part) -> (Part, Option<Part>) {
        let node = &self.nodes[n];
        let first = node.parts[0];
        match (node.name, run) {
            ("loop", Run::Started) => ((first, run), None),
            ("loop", Run::Resumed) => ((first, run), Some((first, Run::Started))),
            (_, Run::Resumed) if !self.holds(first) => ((node.parts[1], run), None),
            _ => ((first, run), Some((node.parts[1], Run::Started))),
        }
    }

    /// The arms of a parallel that are executed.
    pub fn arms(&self, (n, run): Part) -> Vec<Part> {
        self.nodes[n].parts.iter().filter(|arm| run == Run::Started || self.holds(**arm)).map(|arm| (*arm, run)).collect()
    }

    /// What a local's body sees: the local as it is settled in this run, for sure executed or not.
    pub fn inside(&self, (n, run): Part, sure: bool, e: Event) -> Event {
        let (signal, body) = (self.nodes[n].operand, (self.nodes[n].parts[0], run));
        if sure && self.must(body, e).signals >> signal & 1 == 1 {
            e.with(signal, Status::Present)
        } else if self.can(body, sure, e).signals >> signal & 1 == 0 {
            e.with(signal, Status::Absent)
        } else {
            e
        }
    }

    /// The code that a part must give.
    pub fn code(&self, part: Part, e: Event) -> Option<u32> {
        self.must(part, e).code
    }

    fn must(&self, part: Part, e: Event) -> Must {
        let known = self.musts.borrow().get(&(part, e)).copied();
        known.unwrap_or_else(|| {
            let must = self.must_anew(part, e);
            self.musts.borrow_mut().insert((part, e), must);
            must
        })
    }

    fn must_anew(&self, part: Part, e: Event) -> Must {
        let (n, run) = part;
        let node = &self.nodes[n];
        let code = |code: u32| Must { signals: 0, code: Some(code) };
        let unknown = Must { signals: 0, code: None };
        match node.name {
            "nothing" => code(0),
            "pause" => code(u32::from(run == Run::Started)),
            "emit" => Must { signals: 1 << node.operand, code: Some(0) },
            "exit" => code(u32::from(node.operand) + 2),
            "present" => self.branch(part, e).map_or(unknown, |branch| self.must(branch, e)),
            "suspend" => match self.held(part, e) {
                Status::Present => code(1),
                Status::Absent => self.must((node.parts[0], run), e),
                Status::Unknown => unknown,
            },
            "parallel" => self.arms(part).into_iter().fold(code(0), |all, arm| {
                let one = self.must(arm, e);
                Must { signals: all.signals | one.signals, code: all.code.zip(one.code).map(|(a, b)| a.max(b)) }
            }),
            "trap" => {
                let body = self.must((node.parts[0], run), e);
                Must { code: body.code.map(down), ..body }
            }
            "local" => {
                let body = self.must((node.parts[0], run), self.inside(part, true, e));
                Must { signals: body.signals & !(1 << node.operand), ..body }
            }
            _ => self.must_stages(part, e),
        }
    }

    fn must_stages(&self, part: Part, e: Event) -> Must {
        let (first, second) = self.stages(part);
        let one = self.must(first, e);
        match second.filter(|_| one.code == Some(0)).map(|second| self.must(second, e)) {
            Some(other) => Must { signals: one.signals | other.signals, code: other.code },
            None => one,
        }
    }

    /// What a part can do, for sure executed or not.
    pub fn can(&self, part: Part, sure: bool, e: Event) -> Can {
        let known = self.cans.borrow().get(&(part, sure, e)).copied();
        known.unwrap_or_else(|| {
            let can = self.can_anew(part, sure, e);
            self.cans.borrow_mut().insert((part, sure, e), can);
            can
        })
    }

    fn can_anew(&self, part: Part, sure: bool, e: Event) -> Can {
        let (n, run) = part;
        let node = &self.nodes[n];
        let code = |code: u32| Can { signals: 0, codes: 1 << code };
        match node.name {
            "nothing" => code(0),
            "pause" => code(u32::from(run == Run::Started)),
            "emit" => Can { signals: 1 << node.operand, codes: 1 },
            "exit" => code(u32::from(node.operand) + 2),
            "present" => match self.branch(part, e) {
                Some(branch) => self.can(branch, sure, e),
                None => either(self.can((node.parts[0], run), false, e), self.can((node.parts[1], run), false, e)),
            },
            "suspend" => match self.held(part, e) {
                Status::Present => code(1),
                Status::Absent => self.can((node.parts[0], run), sure, e),
                Status::Unknown => either(self.can((node.parts[0], run), false, e), code(1)),
            },
            "parallel" => self.arms(part).into_iter().fold(code(0), |all, arm| {
                let one = self.can(arm, sure, e);
                Can { signals: all.signals | one.signals, codes: maxima(all.codes, one.codes) }
            }),
            "trap" => {
                let body = self.can((node.parts[0], run), sure, e);
                Can { codes: (0..32).filter(|k| body.codes >> k & 1 == 1).fold(0, |all, k| all | 1 << down(k)), ..body }
            }
            "local" => {
                let body = self.can((node.parts[0], run), sure, self.inside(part, sure, e));
                Can { signals: body.signals & !(1 << node.operand), ..body }
            }
            _ => self.can_stages(part, sure, e),
        }
    }

    fn can_stages(&self, part: Part, sure: bool, e: Event) -> Can {
        let (first, second) = self.stages(part);
        let one = self.can(first, sure, e);
        match second.filter(|_| one.codes & 1 == 1) {
            Some(second) => {
                let stays_sure = sure && self.code(first, e) == Some(0);
                either(Can { codes: one.codes & !1, ..one }, self.can(second, stays_sure, e))
            }
            None => one,
        }
    }
}

fn either(a: Can, b: Can) -> Can {
    Can { signals: a.signals | b.signals, codes: a.codes | b.codes }
}

/// What a trap makes of a code.
fn down(code: u32) -> u32 {
    match code {
        0 | 2 => 0,
        1 => 1,
        more => more - 1,
    }
}

/// The greater of each two codes, one of each set.
fn maxima(a: u32, b: u32) -> u32 {
    let has = |set: u32, k: u32| set >> k & 1 == 1;
    let has_up_to = |set: u32, k: u32| u64::from(set) & ((2 << k) - 1) != 0;
    (0..32).filter(|k| has(a, *k) && has_up_to(b, *k) || has(b, *k) && has_up_to(a, *k)).fold(0, |all, k| all | 1 << k)
}

#[cfg(test)]
mod tests {
    use super::*;
    use crate::walk::walk;

    #[test]
    fn codes() {
        assert_eq!([maxima(0b01, 0b10), maxima(0b011, 0b110), maxima(0b1, 0b1), maxima(0b1000, 0b11), maxima(1 << 31, 1)], [0b10, 0b110, 0b1, 0b1000, 1 << 31]);
        assert_eq!([0, 1, 2, 3, 17].map(down), [0, 1, 0, 2, 16]);
    }

    /// Document 01's example, resumed: suspend, on I: pause; emit O.
    #[test]
    fn held_and_not() {
        let block = [14, 0, 1, 0, 1, 0, 7, 0, 1, 0, 1, 0, 0, 0, 6, 0, 20, 0, 0, 0, 4, 0, 21, 0, 4, 0, 17, 0, 6, 0, 18, 0, 1, 0];
        let meaning = Meaning::of(&walk(&block, block.len()).statements, 1);
        assert_eq!(meaning.nodes.iter().map(|node| node.parts.clone()).collect::<Vec<_>>(), [vec![1], vec![2, 3], vec![], vec![]]);
        let at = |present, absent| Event { present, absent };
        let must = |run, e| meaning.must((0, run), e);
        assert_eq!([must(Run::Resumed, at(1, 0)).code, must(Run::Resumed, at(0, 1)).code, must(Run::Resumed, at(0, 0)).code], [Some(1), Some(0), None]);
        assert_eq!([must(Run::Resumed, at(1, 0)).signals, must(Run::Resumed, at(0, 1)).signals, must(Run::Started, at(1, 0)).signals], [0, 2, 0]);
        let can = meaning.can((0, Run::Resumed), true, at(0, 0));
        assert_eq!((can.signals, can.codes), (2, 0b11));
    }
}
