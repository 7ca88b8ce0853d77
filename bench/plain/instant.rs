//! One instant: the tests in their order, the rounds, the next state.

use super::clash::first_clash;
use super::codes::{ONE, ZERO};
use super::keep::Kept;
use super::read::read;
use super::state::{self, State, FINISHED, RUNNING};
use super::table::Table;
use super::values::{Event, Given};

/// Every field; those that are not named by an answer are 0.
#[derive(Clone, Copy, Default, PartialEq, Eq, Debug)]
pub struct Answer {
    pub number: u16,
    pub place: usize,
    pub first: u16,
    pub second: u16,
    pub present: u64,
    pub absent: u64,
    pub undecided: u32,
    pub rounds: u16,
    pub code: u16,
    pub active: u32,
}

fn refused(number: u16, place: usize) -> Answer {
    Answer { number, place, ..Answer::default() }
}

/// The bits below n.
fn below(n: u16) -> u64 {
    if n >= 64 { u64::MAX } else { (1 << n) - 1 }
}

pub fn instant(block: &[u8], lent: &mut [u8], inputs: u64) -> Answer {
    let mut table = Table::empty();
    if let Err((number, place)) = read(block, &mut table) {
        return refused(number, place);
    }
    let state = match state::read(lent, &table) {
        Ok(state) => state,
        Err(number) => return refused(number, 0),
    };
    if let Some((first, second)) = first_clash(&table, state.active) {
        return Answer { first, second, ..refused(10, 0) };
    }
    if inputs & !below(table.inputs) != 0 {
        return refused(11, 0);
    }
    table.activate(state.active);
    react(&table, state, inputs, lent)
}

/// The rounds, and where they leave a code, the next state written over the lent one. Where no output is undecided the next round changes
/// nothing, so it is counted and not walked. The code comes from the walk of the next state, which asks for must as the rules word it.
fn react(table: &Table, state: State, inputs: u64, lent: &mut [u8]) -> Answer {
    let outputs = below(table.inputs + table.outputs) & !below(table.inputs);
    let (e, rounds) = settle(table, state.phase, outputs, Event { present: inputs, absent: below(table.inputs) & !inputs });
    let (present, absent) = (e.present & outputs, e.absent & outputs);
    let kept = match state.phase {
        FINISHED => Kept { codes: ZERO, pauses: 0 },
        phase => table.keep(0, phase == RUNNING, state.active, e),
    };
    if kept.codes == 0 {
        let undecided = (outputs & !present & !absent).count_ones();
        return Answer { present, absent, undecided, rounds, ..refused(13, 0) };
    }
    let goes_on = kept.codes == ONE;
    let active = if goes_on { kept.pauses } else { 0 };
    state::write(lent, State { phase: if goes_on { RUNNING } else { FINISHED }, active });
    let code = kept.codes.trailing_zeros() as u16;
    Answer { present, rounds, code, active: active.count_ones(), ..Answer::default() }
}

/// The event at which a round changes nothing, and how many rounds there were with it.
fn settle(table: &Table, phase: u16, outputs: u64, mut e: Event) -> (Event, u16) {
    let mut rounds = 1;
    while outputs & !e.present & !e.absent != 0 {
        let (must, can) = round(table, phase, e);
        let next = Event { present: e.present | must.signals & outputs, absent: e.absent | outputs & !can.signals };
        if next == e {
            break;
        }
        e = next;
        rounds += 1;
    }
    (e, rounds)
}

/// Must, and can under plus, of the whole block; finished runs as nothing.
fn round(table: &Table, phase: u16, e: Event) -> (Given, Given) {
    if phase == FINISHED {
        return (Given::code(ZERO), Given::code(ZERO));
    }
    (table.must(0, phase == RUNNING, e), table.can(0, phase == RUNNING, true, e))
}
