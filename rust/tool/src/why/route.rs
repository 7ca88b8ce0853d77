//! What the named test of a 13 waits for: from each undecided test to the emits that may still emit its signal, and on to the tests that these wait for.

use super::reach::{Emit, Reach, Signal, Stands};
use std::collections::VecDeque;

/// The signal of one test waits for an emit, and that emit for another test; tests by their places in the list, the emit by its number.
#[derive(Clone, Copy, PartialEq, Eq, PartialOrd, Ord, Debug)]
pub struct Arrow {
    pub from: usize,
    pub emit: usize,
    pub stands: Stands,
    pub to: usize,
}

pub struct Waiting<'a> {
    pub reach: &'a Reach<'a>,
    /// The named test.
    pub named: usize,
    /// How many of the signals are inputs: an undecided one is an input that is not heard, and nothing is waited for behind it.
    inputs: u16,
}

impl<'a> Waiting<'a> {
    /// None where the statement is not among the undecided tests that were found.
    pub fn of(reach: &'a Reach<'a>, statement: usize, inputs: u16) -> Option<Waiting<'a>> {
        let named = reach.tests.iter().position(|test| test.statement == statement && test.is_reached)?;
        Some(Waiting { reach, named, inputs })
    }

    pub fn signal(&self, test: usize) -> Signal {
        self.reach.tests[test].signal
    }

    pub fn is_input(&self, signal: Signal) -> bool {
        signal.number < self.inputs
    }

    /// The emits that may still emit a signal.
    pub fn emits(&self, signal: Signal) -> impl Iterator<Item = &Emit> {
        self.reach.emits.iter().filter(move |emit| emit.signal == signal)
    }

    /// The arrows from a test, those of its lowest emit first.
    fn arrows(&self, test: usize) -> Vec<Arrow> {
        let arrow = |emit: &Emit, stands: Stands, to: usize| Arrow { from: test, emit: emit.statement, stands, to };
        let mut all: Vec<Arrow> = self.emits(self.signal(test)).flat_map(|emit| emit.waits().map(move |(stands, to)| arrow(emit, stands, to))).collect();
        all.sort_unstable();
        all.dedup();
        all
    }

    /// The named test and every test that is come to from it, as they are met.
    pub fn met(&self) -> Vec<usize> {
        let (mut met, mut asked) = (vec![self.named], Vec::new());
        let mut is_met = vec![false; self.reach.tests.len()];
        is_met[self.named] = true;
        let mut at = 0;
        while at < met.len() {
            let signal = self.signal(met[at]);
            at += 1;
            if asked.contains(&signal) {
                continue;
            }
            asked.push(signal);
            for (_, test) in self.reach.emits.iter().filter(|emit| emit.signal == signal).flat_map(Emit::waits) {
                if !is_met[test] {
                    is_met[test] = true;
                    met.push(test);
                }
            }
        }
        met
    }

    /// The shortest way from the named test, by one arrow at least, to a test of this sort.
    fn shortest(&self, is_end: impl Fn(usize) -> bool) -> Option<Vec<Arrow>> {
        let mut before: Vec<Option<Arrow>> = vec![None; self.reach.tests.len()];
        let mut due = VecDeque::from(vec![self.named]);
        let mut asked = Vec::new();
        while let Some(test) = due.pop_front() {
            // Two tests of one signal wait for the same: the first has shown where that leads.
            if asked.contains(&self.signal(test)) {
                continue;
            }
            asked.push(self.signal(test));
            for arrow in self.arrows(test) {
                if before[arrow.to].is_none() {
                    before[arrow.to] = Some(arrow);
                    if is_end(arrow.to) {
                        return Some(self.back(&before, arrow));
                    }
                    due.push_back(arrow.to);
                }
            }
        }
        None
    }

    /// The arrows that led to this one, from the named test on.
    fn back(&self, before: &[Option<Arrow>], last: Arrow) -> Vec<Arrow> {
        let mut way = vec![last];
        while let Some(arrow) = way.last().filter(|arrow| arrow.from != self.named).and_then(|arrow| before[arrow.from]) {
            way.push(arrow);
        }
        way.reverse();
        way
    }

    /// The way round to the named test itself; where there is none, one that comes back to a test that it passed.
    pub fn cycle(&self) -> Option<Vec<Arrow>> {
        let named = self.named;
        self.shortest(|test| test == named).or_else(|| {
            let mut way = Vec::new();
            Some(()).filter(|_| self.comes_back(named, &mut way, &mut vec![false; self.reach.tests.len()])).map(|_| way)
        })
    }

    /// Whether the way, gone on from this test, can come back to a test that it passed; it then does. Tests from which it cannot are marked.
    fn comes_back(&self, test: usize, way: &mut Vec<Arrow>, is_done: &mut [bool]) -> bool {
        for arrow in self.arrows(test) {
            let is_passed = arrow.to == test || way.iter().any(|passed| passed.from == arrow.to);
            way.push(arrow);
            if is_passed || !is_done[arrow.to] && self.comes_back(arrow.to, way, is_done) {
                return true;
            }
            way.pop();
        }
        is_done[test] = true;
        false
    }

    /// The shortest chain that ends at an input that is not heard; from a test of such an input it has no arrow.
    pub fn chain(&self) -> Option<Vec<Arrow>> {
        if self.is_input(self.signal(self.named)) {
            return Some(Vec::new());
        }
        self.shortest(|test| self.is_input(self.signal(test)))
    }
}
