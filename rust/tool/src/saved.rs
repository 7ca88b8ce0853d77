//! A saved state: what it says, why some bytes are none, and why a block does not take one, with what to do then.

use crate::block::Block;
use crate::layout::{begins_log_record, two, Header, State, HEAD, OLD_STATE, PAUSES, STATE, STATE_KIND};
use crate::refusal;
use crate::sets;
use crate::walk::counted;
use foldheron::{instant, Instant, Summary};

/// A state that is refused: the number, what is wrong, and what to do, which ends with "start afresh".
pub struct TurnedDown {
    pub number: u16,
    pub why: String,
    pub advice: &'static str,
}

const OLD_ADVICE: &str = "a state from before version 2.0.0 is not taken: start afresh";

/// The state of some bytes, where they can be a state of some block.
pub fn read(bytes: &[u8]) -> Result<State, String> {
    match (State::of(bytes), no_state(bytes, PAUSES)) {
        (Some(state), None) => Ok(state),
        (_, why) => Err(why.unwrap_or_default()),
    }
}

/// Why some bytes are no state of a block with so many pauses; none where they may be one.
fn no_state(bytes: &[u8], pauses: usize) -> Option<String> {
    match State::of(bytes) {
        Some(state) => contradiction(&state, pauses),
        None => Some(no_record(bytes)),
    }
}

/// What in a state's fields cannot be, in a block with so many pauses.
fn contradiction(state: &State, pauses: usize) -> Option<String> {
    let active = state.pauses();
    match (state.phase_name(), active.last()) {
        (None, _) => Some(format!("its phase is {}, and there are 0, 1 and 2", state.phase)),
        (_, Some(last)) if *last >= pauses => Some(format!("pause {} is active in it, and the block has {}", last, counted(pauses as u64, "pause"))),
        (Some("running"), None) => Some("it is running, and no pause is active".to_string()),
        (Some(name @ ("fresh" | "finished")), Some(_)) => Some(format!("it is {}, and has {} active", name, sets::pauses(&active))),
        _ => None,
    }
}

/// What a state says of its block, or a block of itself.
pub fn named(version: u16, statements: u16) -> String {
    format!("version {} with {}", version, counted(statements.into(), "statement"))
}

/// Whether a state names this block.
pub fn names(state: &State, summary: &Summary) -> bool {
    (state.version, state.statements) == (summary.version, summary.statements)
}

/// Why some bytes are no state record.
fn no_record(bytes: &[u8]) -> String {
    if bytes.is_empty() {
        return "the file is empty".to_string();
    }
    if Header::of(bytes).is_some() {
        return "this is a block".to_string();
    }
    if begins_log_record(bytes) {
        return "this is a log".to_string();
    }
    if let Some(old) = State::of_old(bytes) {
        return no_longer(&old);
    }
    if bytes.len() > STATE {
        return format!("it has more than {} bytes", STATE);
    }
    match (two(bytes, 0), two(bytes, 2)) {
        _ if bytes.len() < STATE => format!("it has {}, and a state has {}", counted(bytes.len() as u64, "byte"), STATE),
        (Some(length), Some(kind)) => format!("it begins with length {} and kind {}, and a state with {} and {}", length, kind, STATE, STATE_KIND),
        _ => format!("it has no head of {} bytes", HEAD),
    }
}

/// What is said of an old record.
fn no_longer(old: &State) -> String {
    let said = contradiction(old, PAUSES).unwrap_or_else(|| in_words(old));
    format!("this is an old record of {} bytes ({}), which does not name its block; since version 2.0.0 a state has {}", OLD_STATE, said, STATE)
}

pub fn in_words(state: &State) -> String {
    let name = state.phase_name().unwrap_or("");
    match name {
        "running" => format!("running, waits at {}", sets::pauses(&state.pauses())),
        "finished" => "finished: every further instant ends with code 0 and no output".to_string(),
        _ => name.to_string(),
    }
}

/// Why a block does not take a state as its own, if it does not: tried on a copy, without an input.
pub fn turned_down(block: &Block, bytes: &[u8]) -> Option<TurnedDown> {
    let mut copy = bytes.to_vec();
    let (number, why) = match instant(&block.bytes, &mut copy, 0) {
        Instant::Clash(first, second) => (10, format!("pauses {} and {} cannot be active together in this block", first, second)),
        Instant::Refused(why) if why.number == 9 => (9, no_state(bytes, block.summary.pauses.into()).unwrap_or_else(|| refusal::meaning(9))),
        Instant::Refused(why) => (why.number, refusal::meaning(why.number)),
        _ => return None,
    };
    let other = State::of(bytes).filter(|state| !names(state, &block.summary)).map(|state| written_for(block, &state));
    let is_old = State::of_old(bytes).is_some();
    Some(match (number, other) {
        (17, Some(other)) => TurnedDown { number, why: other, advice: refusal::advice(17) },
        (9, Some(other)) => TurnedDown { number, why: format!("{}; {}", why, other), advice: refusal::advice(17) },
        (9, None) if is_old => TurnedDown { number, why, advice: OLD_ADVICE },
        _ => TurnedDown { number, why, advice: refusal::advice(number) },
    })
}

/// The block that a state names, and the one at hand.
fn written_for(block: &Block, state: &State) -> String {
    let ours = named(block.summary.version, block.summary.statements);
    format!("it was written for {}, and this block is {}", named(state.version, state.statements), ours)
}

/// What to do with some bytes that are no state, where no block is at hand.
pub fn advice(bytes: &[u8]) -> &'static str {
    match State::of_old(bytes) {
        Some(_) => OLD_ADVICE,
        None => "a state is what foldheron run --to saves",
    }
}
