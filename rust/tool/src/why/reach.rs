//! What is reached in the final round: the statements that are executed for sure, the tests whose signal is undecided, and the emits that may still be
//! executed, each with every undecided test that it stands under, or comes after.

use super::meaning::{Event, Meaning, Part, Run, Status};
use std::ops::Range;

/// A statement that is executed for sure, how, and with which statuses.
pub struct Visit {
    pub part: Part,
    pub event: Event,
}

/// A signal; of a local also which run of its body it belongs to.
#[derive(Clone, Copy, PartialEq, Eq, Debug)]
pub struct Signal {
    pub number: u16,
    pub scope: usize,
}

/// An undecided test that is reached for sure, or that would be reached were the undecided tests above it, or before it, settled so.
pub struct Test {
    pub statement: usize,
    pub signal: Signal,
    pub is_reached: bool,
    /// Whether its signal is undecided there for sure. A local in a part that is not sure to be executed may be settled once the part is.
    pub is_known: bool,
}

/// How an emit stands to the test that it waits for.
#[derive(Clone, Copy, PartialEq, Eq, PartialOrd, Ord, Debug)]
pub enum Stands {
    Under,
    After,
    /// In the body that a loop starts again once the test is settled.
    Again,
}

/// Tests, by their places in the list, that have to be settled before, and how what waits for them stands to them.
type Waits = (Stands, Range<usize>);

/// An emit that may still be executed, and every undecided test on the way to it.
pub struct Emit {
    pub statement: usize,
    pub signal: Signal,
    waits: Vec<Waits>,
}

impl Emit {
    /// The tests that it waits for, from the outermost on.
    pub fn waits(&self) -> impl Iterator<Item = (Stands, usize)> + '_ {
        self.waits.iter().flat_map(|(stands, tests)| tests.clone().map(move |test| (*stands, test)))
    }
}

/// Whether a part is executed for sure, or waits for tests.
#[derive(Clone)]
struct Way {
    is_sure: bool,
    waits: Vec<Waits>,
}

impl Way {
    /// The way on behind these tests.
    fn behind(&self, stands: Stands, tests: Range<usize>) -> Way {
        let more = Some((stands, tests)).filter(|(_, tests)| !tests.is_empty());
        Way { is_sure: false, waits: self.waits.iter().cloned().chain(more).collect() }
    }
}

pub struct Reach<'a> {
    pub meaning: &'a Meaning,
    pub visits: Vec<Visit>,
    pub tests: Vec<Test>,
    pub emits: Vec<Emit>,
    /// Of each run of a local's body whether it is executed for sure; the first stands for inputs and outputs.
    scopes: Vec<bool>,
}

/// For each local by its number the run of its body that is at hand.
type Scopes = [usize; 64];

impl<'a> Reach<'a> {
    /// What is reached at the statuses with which the rounds end; in a block that has ended nothing is.
    pub fn of(meaning: &'a Meaning, run: Option<Run>, e: Event) -> Reach<'a> {
        let mut reach = Reach { meaning, visits: Vec::new(), tests: Vec::new(), emits: Vec::new(), scopes: vec![true] };
        if let Some(run) = run {
            reach.walk((0, run), e, &[0; 64], &Way { is_sure: true, waits: Vec::new() });
        }
        reach
    }

    fn walk(&mut self, part: Part, e: Event, scopes: &Scopes, way: &Way) {
        let (n, run) = part;
        let meaning = self.meaning;
        let node = &meaning.nodes[n];
        if way.is_sure {
            self.visits.push(Visit { part, event: e });
        }
        match node.name {
            "emit" => self.emit(n, scopes, way),
            "present" => match meaning.branch(part, e) {
                Some(branch) => self.walk(branch, e, scopes, way),
                None => self.undecided(n, &[(node.parts[0], run), (node.parts[1], run)], e, scopes, way),
            },
            "suspend" => match meaning.held(part, e) {
                Status::Present => {}
                Status::Absent => self.walk((node.parts[0], run), e, scopes, way),
                Status::Unknown => self.undecided(n, &[(node.parts[0], run)], e, scopes, way),
            },
            "sequence" | "loop" => self.stages(part, e, scopes, way),
            "parallel" => meaning.arms(part).into_iter().for_each(|arm| self.walk(arm, e, scopes, way)),
            "trap" => self.walk((node.parts[0], run), e, scopes, way),
            "local" => {
                let mut inner = *scopes;
                inner[usize::from(node.operand)] = self.scopes.len();
                self.scopes.push(way.is_sure);
                self.walk((node.parts[0], run), meaning.inside(part, way.is_sure, e), &inner, way);
            }
            _ => {}
        }
    }

    fn signal(&self, n: usize, scopes: &Scopes) -> Signal {
        let number = self.meaning.nodes[n].operand;
        Signal { number, scope: scopes[usize::from(number)] }
    }

    fn emit(&mut self, n: usize, scopes: &Scopes, way: &Way) {
        if !way.is_sure {
            let signal = self.signal(n, scopes);
            self.emits.push(Emit { statement: n, signal, waits: way.waits.clone() });
        }
    }

    /// The parts of an undecided test: they wait for it, and for what the test itself waits for.
    fn undecided(&mut self, n: usize, parts: &[Part], e: Event, scopes: &Scopes, way: &Way) {
        let signal = self.signal(n, scopes);
        let test = self.tests.len();
        self.tests.push(Test { statement: n, signal, is_reached: way.is_sure, is_known: self.scopes[signal.scope] });
        let way = way.behind(Stands::Under, test..test + 1);
        parts.iter().for_each(|part| self.walk(*part, e, scopes, &way));
    }

    /// The second stage is as sure as the first where that must give 0; where it can give 0 it waits for every undecided test in the first.
    fn stages(&mut self, part: Part, e: Event, scopes: &Scopes, way: &Way) {
        let (first, second) = self.meaning.stages(part);
        let before = self.tests.len();
        self.walk(first, e, scopes, way);
        let second = match second {
            Some(second) => second,
            None => return,
        };
        if self.meaning.code(first, e) == Some(0) {
            self.walk(second, e, scopes, way);
        } else if self.meaning.can(first, way.is_sure, e).codes & 1 == 1 {
            let stands = if self.meaning.nodes[part.0].name == "loop" { Stands::Again } else { Stands::After };
            let way = way.behind(stands, before..self.tests.len());
            self.walk(second, e, scopes, &way);
        }
    }
}
