//! One number, one behaviour: whether two blocks do the same from fresh under every run of inputs, and else the run that shows it.

use std::collections::HashSet;

use crate::block::{decode, Block, Refusal};
use crate::fault::Fault;
use crate::reaction::{Phase, Reaction};
use crate::rules::Rules;
use crate::state::ROOM;

pub const INTERFACE: u16 = 23;
pub const WIDE: u16 = 24;
pub const PAIRS: u16 = 25;

/// So many bytes are lent for the run at least, so many pairs may be reached, and so many inputs may there be.
pub const RUN: usize = 1024;
const MOST: usize = 1024;
const INPUTS: u16 = 6;

/// What the call gives back; length 0 with number 0 is alike. `second` says that 1 to 8 are of the second block.
#[derive(Clone, Copy, PartialEq, Eq, Debug, Default)]
pub struct Likeness {
    pub number: u16,
    pub place: usize,
    pub second: bool,
    pub length: usize,
}

impl Likeness {
    fn refused(number: u16) -> Likeness {
        Likeness { number, ..Likeness::default() }
    }

    fn of_block(refusal: Refusal, second: bool) -> Likeness {
        Likeness { number: refusal.number, place: refusal.place, second, length: 0 }
    }
}

/// Two blocks with the same interface, and the pair of states that a run leads to.
pub struct Two<'a> {
    pub blocks: [&'a Block; 2],
    pub fault: Fault,
}

pub type Pair = [Phase; 2];

/// What the search comes to: alike, a run that shows a difference, or too many pairs.
#[derive(PartialEq, Eq, Debug)]
pub enum Found {
    Alike,
    Shown(Vec<u8>),
    Many,
}

/// The call: 1 to 8 of the first block, then of the second, 23, 24, 12, 25.
pub fn alike(first: &[u8], second: &[u8], run: &mut [u8], fault: Fault) -> Likeness {
    let (one, two) = (decode(first, Fault::None), decode(second, Fault::None));
    if fault == Fault::SecondFirst {
        if let Err(refusal) = two {
            return Likeness::of_block(refusal, true);
        }
    }
    let one = match one {
        Ok(block) => block,
        Err(refusal) => return Likeness::of_block(refusal, false),
    };
    let two = match two {
        Ok(block) => block,
        Err(refusal) => return Likeness::of_block(refusal, fault != Fault::SecondNotSaid),
    };
    if let Some(number) = unfit(&one, &two, run.len(), fault) {
        return Likeness::refused(number);
    }
    let found = Two { blocks: [&one, &two], fault }.search();
    match found {
        Found::Alike => Likeness::default(),
        Found::Many => Likeness::refused(PAIRS),
        Found::Shown(sets) => {
            let sets = if fault == Fault::LastSetLeftOut { &sets[..sets.len() - 1] } else { &sets[..] };
            let length = sets.len().min(run.len());
            run[..length].copy_from_slice(&sets[..length]);
            if fault == Fault::RestCleared {
                run[length..].iter_mut().for_each(|byte| *byte = 0);
            }
            Likeness { length, ..Likeness::default() }
        }
    }
}

/// 23, then 24, then 12.
fn unfit(one: &Block, two: &Block, room: usize, fault: Fault) -> Option<u16> {
    let (one, two) = (one.header, two.header);
    let unlike = match fault {
        Fault::OutputsNotCompared => one.inputs != two.inputs,
        Fault::InputsNotCompared => one.outputs != two.outputs,
        Fault::VersionsCompared => one.inputs != two.inputs || one.outputs != two.outputs || one.version != two.version,
        _ => one.inputs != two.inputs || one.outputs != two.outputs,
    };
    let widest = match fault {
        Fault::WideLow => INPUTS - 1,
        Fault::WideHigh => INPUTS + 1,
        _ => INPUTS,
    };
    let least = match fault {
        Fault::RunLow => RUN - 1,
        Fault::RunHigh => RUN + 1,
        _ => RUN,
    };
    let mut tests = [(unlike, INTERFACE), (one.inputs.max(two.inputs) > widest, WIDE), (room < least, ROOM)];
    match fault {
        Fault::WideBeforeInterface => tests.swap(0, 1),
        Fault::RoomBeforeWide => tests.swap(1, 2),
        _ => {}
    }
    tests.iter().find(|test| test.0).map(|test| test.1)
}

impl<'a> Two<'a> {
    /// The input sets in order.
    pub fn sets(&self) -> Vec<u64> {
        let mut sets: Vec<u64> = (0..1u64 << self.blocks[0].header.inputs).collect();
        if self.fault == Fault::SetsFromTheTop {
            sets.reverse();
        }
        sets
    }

    /// What each of the two does from its state with a set.
    pub fn react(&self, pair: Pair, set: u64) -> [Reaction; 2] {
        let rules = Rules { fault: Fault::None };
        [rules.react(self.blocks[0], pair[0], set), rules.react(self.blocks[1], pair[1], set)]
    }

    /// Whether the two are told apart: one is 13 and the other not, or both are answered with other outputs or another code.
    pub fn differ(&self, [one, two]: [Reaction; 2]) -> bool {
        match self.fault {
            Fault::CodesNotCompared => one.code.is_some() != two.code.is_some() || one.code.is_some() && one.present != two.present,
            Fault::PresentNotCompared => one.code != two.code,
            Fault::RoundsCompared => one.code != two.code || one.present != two.present || one.rounds != two.rounds,
            Fault::ReportCompared => one.code != two.code || one.present != two.present || one.undecided != two.undecided,
            Fault::RefusedAsSilent => answered(one) != answered(two),
            Fault::RefusedNeverDiffers => one.code.is_some() && two.code.is_some() && answered(one) != answered(two),
            _ => one.code != two.code || one.code.is_some() && one.present != two.present,
        }
    }

    /// The pair after an instant; a 13 keeps its state.
    fn after(&self, told: [Reaction; 2]) -> Pair {
        [told[0].next, told[1].next]
    }

    /// Level by level: the runs of one more set, from the pairs that shorter runs do not reach, each by the first run to it.
    pub fn search(&self) -> Found {
        let most = match self.fault {
            Fault::PairsLow => MOST - 1,
            Fault::PairsHigh => MOST + 1,
            _ => MOST,
        };
        let begin = [Phase::Fresh, Phase::Fresh];
        let mut reached: HashSet<Pair> = HashSet::new();
        if self.fault != Fault::BeginningNotCounted {
            reached.insert(begin);
        }
        let mut level: Vec<(Pair, Vec<u8>)> = vec![(begin, Vec::new())];
        while !level.is_empty() {
            // No run so far shows a difference, so all of these are shorter than one that does.
            if reached.len() > most {
                return Found::Many;
            }
            let mut next = Vec::new();
            for (pair, run) in &level {
                for &set in &self.sets() {
                    let told = self.react(*pair, set);
                    let longer = [&run[..], &[set as u8]].concat();
                    if self.differ(told) {
                        return Found::Shown(longer);
                    }
                    let pair = self.after(told);
                    if reached.insert(pair) {
                        next.push((pair, longer));
                    }
                    if self.fault == Fault::ManyAtOnce && reached.len() > most {
                        return Found::Many;
                    }
                }
            }
            level = next;
        }
        Found::Alike
    }
}

/// The code and outputs of an answered instant, nothing of a refused one.
fn answered(told: Reaction) -> (u32, u64) {
    told.code.map_or((0, 0), |code| (code, told.present))
}
