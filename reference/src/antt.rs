//! Rows for a proof file: random small ones that tell wrong rules apart, and the smallest for each.

use std::collections::HashSet;

use crate::block::{decode, encode_tokens, Block};
use crate::chance::Chance;
use crate::coherence::{reactions, Outcome, Slip, SLIPS};
use crate::fault::{Fault, RULES};
use crate::generate::{phases, some_inputs, some_phase};
use crate::mutate::some_mixed_block;
use crate::reaction::Phase;
use crate::row::{header_of, Row};
use crate::shrink::renumbered;
use crate::smallest::{smallest_rows, telling_row};

/// So many rows, three in four of them picked because they tell some wrong rule.
pub fn some_rows(count: usize, seed: u64) -> Vec<Row> {
    let mut chance = Chance::new(seed);
    let mut seen = HashSet::new();
    let mut rows = Vec::new();
    let mut n = 0;
    while rows.len() < count {
        let wanted = if n % 4 == 3 { None } else { Some(RULES[n % RULES.len()]) };
        let row = some_row(wanted, &mut chance);
        if seen.insert(row.text()) {
            rows.push(row);
        }
        n += 1;
    }
    rows
}

pub fn print_rows(count: usize, seed: u64) {
    some_rows(count, seed).iter().for_each(|row| println!("{}", row.text()));
}

/// A row of 3 to 12 statements, which tells the wanted fault if one is met in time.
fn some_row(wanted: Option<Fault>, chance: &mut Chance) -> Row {
    let mut tries = 0;
    loop {
        let block = some_small_block(chance);
        // Finished says little, so most such states give way to fresh.
        let phase = match some_phase(&block, chance) {
            Phase::Finished if chance.percent(85) => Phase::Fresh,
            phase => phase,
        };
        let (inputs, outputs) = (block.header.inputs, block.header.outputs);
        let given = some_inputs(&block, chance);
        let row = Row { inputs, outputs, tokens: block.root.tokens(), phase, given };
        let fault = match wanted {
            Some(fault) if tries < 2000 => fault,
            _ => return row,
        };
        if row.expected(fault) != row.expected(Fault::None) {
            return row;
        }
        if let Some(telling) = telling_row(&block, fault) {
            return telling;
        }
        tries += 1;
    }
}

/// So many rows, each of which tells some wrong version of the coherence law; a version that none is met for in time is passed over.
pub fn law_rows(count: usize, seed: u64) -> Vec<Row> {
    let mut chance = Chance::new(seed);
    let mut rows = Vec::new();
    for n in 0..count {
        let slip = SLIPS[n % SLIPS.len()];
        rows.extend((0..2000).find_map(|_| slipped(&some_small_block(&mut chance), slip)));
    }
    rows
}

/// The first instant of a block at which a wrong version of the law finds other coherent reactions.
fn slipped(block: &Block, slip: Slip) -> Option<Row> {
    let (inputs, outputs) = (block.header.inputs, block.header.outputs);
    let shown = |slip: Slip, phase: Phase, given: u64| -> Vec<Outcome> {
        reactions(slip, block, phase, given).into_iter().map(|outcome| outcome.shown()).collect()
    };
    let mut instants = phases(block, 32).into_iter().flat_map(|phase| (0..1 << inputs).map(move |given| (phase, given)));
    instants
        .find(|&(phase, given)| shown(Slip::None, phase, given) != shown(slip, phase, given))
        .map(|(phase, given)| Row { inputs, outputs, tokens: block.root.tokens(), phase, given })
}

/// A block of 3 to 12 statements that declares, three times in four, only the signals it names.
fn some_small_block(chance: &mut Chance) -> Block {
    loop {
        let (_, block) = some_mixed_block(chance, 3, 12);
        let (inputs, outputs, tokens) = (block.header.inputs, block.header.outputs, block.root.tokens());
        if tokens.len() < 3 || tokens.len() > 12 {
            continue;
        }
        if chance.percent(25) {
            return block;
        }
        if let Some((inputs, outputs, tokens)) = renumbered(inputs, outputs, &tokens) {
            let bytes = encode_tokens(header_of(inputs, outputs, &tokens), &tokens);
            return decode(&bytes, Fault::None).unwrap_or(block);
        }
    }
}

/// Prints the smallest row for each wrong rule; false if one has none.
pub fn print_smallest(seed: u64) -> bool {
    let (found, missing) = smallest_rows(seed);
    for (fault, row) in found {
        println!("{fault:?}: {}", row.text());
    }
    missing.iter().for_each(|fault| println!("{fault:?}: none found"));
    missing.is_empty()
}
