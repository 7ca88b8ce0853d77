//! The state record, and the refusals 9 and 17.

use super::records::word;
use super::table::Table;

pub const SIZE: usize = 26;

pub const FRESH: u16 = 0;
pub const RUNNING: u16 = 1;
pub const FINISHED: u16 = 2;

#[derive(Clone, Copy, PartialEq, Eq)]
pub struct State {
    pub phase: u16,
    pub active: u128,
}

/// The state that a record holds for a block, or the number of the refusal.
pub fn read(bytes: &[u8], table: &Table) -> Result<State, u16> {
    if bytes.len() != SIZE || word(bytes, 0) != SIZE as u16 || word(bytes, 2) != 2 {
        return Err(9);
    }
    let mut bits = [0; 16];
    bits.copy_from_slice(&bytes[10..]);
    let (phase, active) = (word(bytes, 8), u128::from_le_bytes(bits));
    let is_beyond = table.pauses < 128 && active >> table.pauses != 0;
    let fits = match phase {
        FRESH | FINISHED => active == 0,
        RUNNING => active != 0 && !is_beyond,
        _ => false,
    };
    let is_named = word(bytes, 4) == table.version && usize::from(word(bytes, 6)) == table.statements;
    match (fits, is_named) {
        (true, true) => Ok(State { phase, active }),
        (true, false) => Err(17),
        _ => Err(9),
    }
}

/// The next state, over one of the same block: its length, kind and names stay.
pub fn write(bytes: &mut [u8], state: State) {
    bytes[8..10].copy_from_slice(&state.phase.to_le_bytes());
    bytes[10..].copy_from_slice(&state.active.to_le_bytes());
}
