//! States of one block lent to another: what a state names decides, after 9 and before 10.

use crate::all::{All, Alphabet};
use crate::block::{decode, encode_tokens, Block, Header, FORMS};
use crate::chance::Chance;
use crate::fault::Fault;
use crate::generate::{phases, some_phase};
use crate::mutate::some_mixed_block;
use crate::reaction::{active_of, Phase};
use crate::row::header_of;
use crate::state::{instant, Answer, OTHER_BLOCK, STATE};

/// A block with its bytes.
struct Known {
    bytes: Vec<u8>,
    block: Block,
}

/// The 26 bytes, written word by word as the request lists them.
fn bytes_of(version: u16, count: u16, phase: Phase) -> Vec<u8> {
    let number = match phase {
        Phase::Fresh => 0,
        Phase::Running(_) => 1,
        Phase::Finished => 2,
    };
    let active = active_of(phase);
    let words = (0..8).map(|n| (active >> (16 * n)) as u16);
    [26, 2, version, count, number].iter().copied().chain(words).flat_map(|word| word.to_le_bytes()).collect()
}

#[derive(Default)]
struct Counts {
    lent: usize,
    run: usize,
    refused: usize,
    /// Refused for what the state names alone: its bits are legal for the block that it was lent to.
    saved: usize,
    failures: Vec<String>,
}

impl Counts {
    /// A state of one block is lent to another: the same record in the other's name says what the rest of it gets.
    fn lend(&mut self, from: &Known, phase: Phase, to: &Known) {
        let names = |known: &Known| (known.block.header.version, known.block.statements as u16);
        let ((version, count), own) = (names(from), names(to));
        let (record, renamed) = (bytes_of(version, count, phase), bytes_of(own.0, own.1, phase));
        let (mut state, mut other) = (record.clone(), renamed);
        let got = instant(&to.bytes, &mut state, 0, Fault::None);
        let without = instant(&to.bytes, &mut other, 0, Fault::None);
        let refused = |number: u16| Answer { number, ..Answer::default() };
        let wanted = match without.number {
            STATE => refused(STATE),
            _ if (version, count) != own => refused(OTHER_BLOCK),
            _ => without,
        };
        self.lent += 1;
        self.run += matches!(got.number, 0 | 13) as usize;
        self.refused += (got.number == OTHER_BLOCK) as usize;
        self.saved += (got.number == OTHER_BLOCK && matches!(without.number, 0 | 13)) as usize;
        let after = if got.number == 0 { &other } else { &record };
        if got != wanted || state != *after {
            self.failures.push(format!("{phase:?} of {:?} in {:?}: {got:?}", from.block.root.tokens(), to.block.root.tokens()));
        }
    }
}

fn known(version: u16, header: Header, tokens: &[crate::block::Token]) -> Option<Known> {
    let bytes = encode_tokens(Header { version, ..header }, tokens);
    decode(&bytes, Fault::None).ok().map(|block| Known { bytes, block })
}

/// Every state of every small block lent to every small block, in two versions.
fn small(most: usize, counts: &mut Counts) {
    let mut blocks = Vec::new();
    let mut all = All::new(Alphabet { forms: &FORMS, inputs: 1, outputs: 1, locals: 1, lean: true });
    for size in 1..=most {
        all.each(size, &mut |tokens| {
            blocks.extend([7, 8].iter().filter_map(|&version| known(version, header_of(1, 1, tokens), tokens)));
        });
    }
    for from in &blocks {
        for phase in phases(&from.block, usize::MAX) {
            blocks.iter().for_each(|to| counts.lend(from, phase, to));
        }
    }
}

/// So many states of random blocks, lent to others.
fn random(count: usize, seed: u64, counts: &mut Counts) {
    let mut chance = Chance::new(seed);
    let some = |chance: &mut Chance| {
        let (_, block) = some_mixed_block(chance, 1, 24);
        let version = chance.pick(&[7, 8, 263]);
        known(version, block.header, &block.root.tokens()).expect("a good block")
    };
    for _ in 0..count {
        let (from, to) = (some(&mut chance), some(&mut chance));
        let phase = some_phase(&from.block, &mut chance);
        counts.lend(&from, phase, &to);
        counts.lend(&from, phase, &from);
    }
}

/// All small blocks up to a size and so many random ones; false if a state is taken otherwise, or if none is saved by its name.
pub fn print_states(most: usize, count: usize, seed: u64) -> bool {
    let mut counts = Counts::default();
    small(most, &mut counts);
    random(count, seed, &mut counts);
    counts.failures.iter().take(20).for_each(|failure| println!("failed state: {failure}"));
    let Counts { lent, run, refused, saved, failures } = counts;
    println!("{lent} states lent: {run} run, {refused} of another block, {saved} of which by what they name alone, {} failed", failures.len());
    failures.is_empty() && run > 0 && saved > 0
}
