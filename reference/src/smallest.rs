//! The smallest row that tells each wrong rule from the true ones.

use crate::all::{All, Alphabet};
use crate::block::{decode, encode_tokens, Block, Form, Token, FORMS};
use crate::chance::Chance;
use crate::fault::{Fault, RULES};
use crate::generate::phases;
use crate::known::known_blocks;
use crate::mutate::some_mixed_block;
use crate::row::{header_of, words, Row};
use crate::rules::Rules;
use crate::shrink::shrunk;

/// A fault and the row found for it.
pub type Found = (Fault, Row);

/// Forms, sizes from and to, and the signal counts tried: inputs, outputs, locals.
type Stage = (&'static [Form], usize, usize, &'static [(u16, u16, u16)]);

const AT_ONCE: [Form; 5] = [Form::Nothing, Form::Emit, Form::Present, Form::Sequence, Form::Local];
const MARKED: [Form; 8] = [
    Form::Nothing, Form::Pause, Form::Emit, Form::Present, Form::Suspend, Form::Sequence, Form::Loop, Form::Local,
];

/// What small blocks may declare.
const FEW: [(u16, u16, u16); 9] =
    [(0, 0, 0), (0, 0, 1), (0, 1, 0), (1, 0, 0), (0, 1, 1), (1, 0, 1), (1, 1, 0), (0, 2, 0), (1, 1, 1)];

/// All forms while blocks are small; then only those that a rule about marks can need.
const STAGES: [Stage; 4] = [
    (&FORMS, 1, 6, &FEW),
    (&FORMS, 7, 7, &[(0, 0, 1), (0, 0, 2), (0, 1, 1), (0, 1, 2)]),
    (&AT_ONCE, 8, 10, &[(0, 0, 2), (0, 1, 1), (0, 1, 2)]),
    (&MARKED, 8, 9, &[(0, 1, 1)]),
];

/// Looks through all small blocks, then through shrunk known and random ones, until every fault has its row.
pub fn smallest_rows(seed: u64) -> (Vec<Found>, Vec<Fault>) {
    let mut found: Vec<Found> = Vec::new();
    let mut wanted: Vec<Fault> = RULES.to_vec();
    for size in 1..=10 {
        for &(forms, _, _, counts) in STAGES.iter().filter(|stage| stage.1 <= size && size <= stage.2) {
            counts.iter().for_each(|&counts| look(size, forms, counts, &mut wanted, &mut found));
        }
    }
    let mut chance = Chance::new(seed);
    wanted.retain(|&fault| match random_row(fault, &mut chance) {
        Some(row) => {
            found.push((fault, row));
            false
        }
        None => true,
    });
    found.sort_by_key(|pair| RULES.iter().position(|&fault| fault == pair.0));
    (found, wanted)
}

/// All blocks of one size over one alphabet; a fault that is told apart is wanted no more.
fn look(
    size: usize, forms: &'static [Form], counts: (u16, u16, u16), wanted: &mut Vec<Fault>, found: &mut Vec<Found>,
) {
    let (inputs, outputs, locals) = counts;
    let mut all = All::new(Alphabet { forms, inputs, outputs, locals, lean: true });
    all.each(size, &mut |tokens| {
        let header = header_of(inputs, outputs, tokens);
        if wanted.is_empty() || header.locals != locals || !names_all(tokens, inputs + outputs) {
            return;
        }
        if let Ok(block) = decode(&encode_tokens(header, tokens), Fault::None) {
            for (fault, row) in told_apart(&block, wanted) {
                wanted.retain(|&other| other != fault);
                found.push((fault, row));
            }
        }
    });
}

/// A smallest block names all the inputs and outputs it has.
fn names_all(tokens: &[Token], signals: u16) -> bool {
    (0..signals).all(|s| tokens.iter().any(|token| token.0.names_signal() && token.1 == s))
}

/// The faults that give something else in some state and with some inputs, each with the first such row.
pub fn told_apart(block: &Block, wanted: &[Fault]) -> Vec<Found> {
    let (inputs, outputs) = (block.header.inputs, block.header.outputs);
    let mut found: Vec<Found> = Vec::new();
    for phase in phases(block, 32) {
        for given in 0..1 << inputs {
            let truth = Rules { fault: Fault::None }.react(block, phase, given);
            for &fault in wanted {
                let other = Rules { fault }.react(block, phase, given);
                let differs = truth != other && words(block, &truth) != words(block, &other);
                if differs && found.iter().all(|pair| pair.0 != fault) {
                    found.push((fault, Row { inputs, outputs, tokens: block.root.tokens(), phase, given }));
                }
            }
        }
    }
    found
}

/// The first row of a block that tells one fault.
pub fn telling_row(block: &Block, fault: Fault) -> Option<Row> {
    told_apart(block, &[fault]).into_iter().next().map(|pair| pair.1)
}

/// The smallest of the known and several random rows that tell, each made smaller as far as it goes.
fn random_row(fault: Fault, chance: &mut Chance) -> Option<Row> {
    let mut rows: Vec<Row> = Vec::new();
    for (inputs, outputs, tokens) in known_blocks() {
        let block = decode(&encode_tokens(header_of(inputs, outputs, &tokens), &tokens), Fault::None);
        rows.extend(block.ok().and_then(|block| telling_row(&block, fault)));
    }
    for _ in 0..20_000 {
        let (_, block) = some_mixed_block(chance, 5, 16);
        rows.extend(telling_row(&block, fault));
        if rows.len() >= 60 {
            break;
        }
    }
    let tells = |block: &Block| telling_row(block, fault);
    rows.into_iter().map(|row| shrunk(row, &tells)).min_by_key(|row| row.tokens.len())
}
