//! The run program: one line for each instant.

use std::convert::TryInto;
use std::fs;
use std::path::Path;

use crate::block::decode;
use crate::fault::Fault;
use crate::reaction::Phase;
use crate::state::{instant, state_record, NOT_CONSTRUCTIVE};

/// Reads the two files of a folder; a missing file is empty.
pub fn run_folder(folder: &str) -> String {
    let read = |name: &str| fs::read(Path::new(folder).join(name)).unwrap_or_default();
    run_lines(&read("block.bin"), &read("inputs.bin"))
}

/// All that the run program prints.
pub fn run_lines(block: &[u8], inputs: &[u8]) -> String {
    let mut state = match decode(block, Fault::None) {
        Ok(read) => state_record(&read, Phase::Fresh),
        Err(refusal) => return format!("block {} {}\n", refusal.number, refusal.place),
    };
    let mut lines = String::new();
    for (n, eight) in inputs.chunks(8).enumerate() {
        let given = match eight.try_into() {
            Ok(bytes) => u64::from_le_bytes(bytes),
            Err(_) => {
                lines.push_str("short\n");
                break;
            }
        };
        // After a refusal it goes on from the same state.
        let answer = instant(block, &mut state, given, Fault::None);
        let count = if answer.number == NOT_CONSTRUCTIVE { answer.undecided } else { answer.active };
        let (number, code, present, rounds) = (answer.number, answer.code, answer.present, answer.rounds);
        lines.push_str(&format!("{} {number} {code} {present} {count} {rounds}\n", n + 1));
    }
    lines
}
