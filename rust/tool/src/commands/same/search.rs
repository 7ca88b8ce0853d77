//! The search, which is the library's, and the run that it found, run on both blocks.

use super::Pair;
use crate::layout::STATE;
use crate::output::say;
use crate::status::Status;
use crate::walk::{counted, grouped};
use foldheron::{alike, fresh, instant, Instant, Likeness, Refusal, RUN_MOST};
use std::sync::mpsc::{channel, RecvTimeoutError};
use std::thread;
use std::time::Duration;

/// Pairs of states that a search keeps at most.
pub const PAIRS: u64 = 1024;
/// After so long a line says that the search goes on.
const SECOND: Duration = Duration::from_secs(1);

pub enum Found {
    Alike,
    /// The bytes are the same, so the two are alike although the library turned them down.
    SameBytes(Refusal),
    Different(Vec<Step>),
    Refused(Refusal),
}

/// One instant of the run that was found: its inputs, and the answers of the old block and of the new one.
pub struct Step {
    pub inputs: u64,
    pub answers: [Instant; 2],
}

impl Found {
    pub fn status(&self) -> Status {
        match self {
            Found::Alike | Found::SameBytes(_) => Status::Good,
            Found::Different(_) => Status::Different,
            Found::Refused(why) => Status::of(why.number),
        }
    }
}

impl Step {
    /// Whether the two are told apart here: one is refused with 13, or the outputs or the code differ.
    pub fn differs(&self) -> bool {
        match &self.answers {
            [Instant::Answered(old), Instant::Answered(new)] => (old.present, old.code) != (new.present, new.code),
            [old, new] => old.number() != new.number(),
        }
    }
}

/// What the library says of the two. Of the same bytes nobody has to say it: they are one block, and what it does is fixed by them.
pub fn search(pair: &Pair) -> Found {
    match waited_for(pair) {
        Ok(run) if run.is_empty() => Found::Alike,
        Ok(run) => Found::Different(steps(pair, &run)),
        Err(why) if pair.has_same_bytes() => Found::SameBytes(why),
        Err(why) => Found::Refused(why),
    }
}

/// The search beside this thread, which tells that it takes its time. A run without a set is none.
fn waited_for(pair: &Pair) -> Result<Vec<u8>, Refusal> {
    let (send, sent) = channel();
    let (old, new) = (pair.old.bytes.clone(), pair.new.bytes.clone());
    thread::spawn(move || send.send(called(&old, &new)));
    match sent.recv_timeout(SECOND) {
        Ok(found) => found,
        Err(RecvTimeoutError::Timeout) => {
            let sets = 1 << pair.labels.inputs().len();
            let all = format!("{} pairs of states, {} of inputs for each", grouped(PAIRS), counted(sets, "set"));
            say(&[format!("still searching after a second: at most {}, {} steps in all", all, grouped(PAIRS * sets))]);
            sent.recv().unwrap_or_else(|why| panic!("the search ended without an answer: {}", why))
        }
        Err(why) => panic!("the search ended without an answer: {}", why),
    }
}

fn called(old: &[u8], new: &[u8]) -> Result<Vec<u8>, Refusal> {
    let mut run = [0; RUN_MOST];
    match alike(old, new, &mut run) {
        Likeness::Alike => Ok(Vec::new()),
        Likeness::Different(run) => Ok(run.to_vec()),
        Likeness::First(why) | Likeness::Second(why) | Likeness::Refused(why) => Err(why),
    }
}

/// The run on both blocks. It has to show a difference in its last instant and nowhere before.
fn steps(pair: &Pair, run: &[u8]) -> Vec<Step> {
    let mut states = [[0; STATE]; 2];
    for (block, state) in [&pair.old, &pair.new].iter().zip(&mut states) {
        fresh(&block.bytes, state).unwrap_or_else(|why| panic!("a good block has no fresh state: {}", why));
    }
    let [old, new] = &mut states;
    let steps: Vec<Step> = run.iter().map(|set| u64::from(*set)).map(|inputs| Step { inputs, answers: [instant(&pair.old.bytes, old, inputs), instant(&pair.new.bytes, new, inputs)] }).collect();
    assert_eq!(steps.iter().position(Step::differs), Some(run.len() - 1), "the run that was found does not show a difference where it should");
    steps
}
