//! The older rule of a local's can beside the rule as it is: absence asked under plus, whatever the mark at hand.
//! No instant refused by the older rule is answered now; one answered now had the same outputs, code and next state.

use crate::all::{All, Alphabet};
use crate::block::{decode, encode_tokens, Block, Form, FORMS};
use crate::chance::Chance;
use crate::fault::Fault;
use crate::generate::{phases, some_inputs, some_phase};
use crate::mutate::some_mixed_block;
use crate::reaction::{Phase, Reaction};
use crate::row::{header_of, words, Row};
use crate::rules::Rules;
use crate::shrink::shrunk;

/// How an instant by the older rule and the same instant now stand to each other.
#[derive(Clone, Copy, PartialEq, Eq, Debug)]
pub enum Change {
    /// Nothing differs.
    Same,
    /// Answered before, refused now.
    Refused,
    /// The same answer after more rounds.
    MoreRounds,
    /// Refused both times, and less is known now.
    LessKnown,
    /// What must not be: refused before and answered now, or another answer, or fewer rounds, or more known.
    Bad,
}

/// Compares the two reactions; answers are whole but for the rounds.
pub fn change(before: &Reaction, now: &Reaction) -> Change {
    let answer = |r: &Reaction| (r.present, r.absent, r.undecided, r.code, r.next);
    let known_before = now.present & !before.present == 0 && now.absent & !before.absent == 0;
    match (before.code, now.code) {
        _ if before == now => Change::Same,
        (Some(_), None) if known_before => Change::Refused,
        (Some(_), Some(_)) if answer(before) == answer(now) && now.rounds > before.rounds => Change::MoreRounds,
        (None, None) if known_before => Change::LessKnown,
        _ => Change::Bad,
    }
}

/// The instant by both rules.
fn both(block: &Block, phase: Phase, given: u64) -> (Reaction, Reaction) {
    let older = Rules { fault: Fault::AbsenceUnderPlus }.react(block, phase, given);
    (older, Rules { fault: Fault::None }.react(block, phase, given))
}

/// The first instant of a block that is changed so, in any state and with any inputs.
pub fn changed_row(block: &Block, wanted: Change) -> Option<Row> {
    let (inputs, outputs) = (block.header.inputs, block.header.outputs);
    for phase in phases(block, 32) {
        for given in 0..1 << inputs {
            let (before, now) = both(block, phase, given);
            if change(&before, &now) == wanted {
                return Some(Row { inputs, outputs, tokens: block.root.tokens(), phase, given });
            }
        }
    }
    None
}

/// How many instants of random blocks are changed in each way.
struct Counts {
    instants: usize,
    refused: usize,
    more_rounds: usize,
    less_known: usize,
    failures: Vec<String>,
}

impl Counts {
    fn instant(&mut self, block: &Block, phase: Phase, given: u64) {
        let (before, now) = both(block, phase, given);
        self.instants += 1;
        match change(&before, &now) {
            Change::Same => {}
            Change::Refused => self.refused += 1,
            Change::MoreRounds => self.more_rounds += 1,
            Change::LessKnown => self.less_known += 1,
            Change::Bad => {
                let (inputs, outputs) = (block.header.inputs, block.header.outputs);
                let row = Row { inputs, outputs, tokens: block.root.tokens(), phase, given };
                self.failures.push(format!("{}, before {}", row.text(), words(block, &before)));
            }
        }
    }
}

/// Both rules on so many instants of random small blocks; false if one is changed as it must not be, or none is changed.
pub fn print_older(count: usize, seed: u64) -> bool {
    let mut chance = Chance::new(seed);
    let mut counts = Counts { instants: 0, refused: 0, more_rounds: 0, less_known: 0, failures: Vec::new() };
    while counts.instants < count {
        let (_, block) = some_mixed_block(&mut chance, 8, 24);
        for _ in 0..4 {
            let (phase, given) = (some_phase(&block, &mut chance), some_inputs(&block, &mut chance));
            counts.instant(&block, phase, given);
        }
    }
    counts.failures.iter().take(20).for_each(|failure| println!("failed by the older rule: {failure}"));
    let Counts { instants, refused, more_rounds, less_known, .. } = counts;
    println!("{instants} instants by the older rule: {refused} of those answered are refused now, {more_rounds} take more rounds,");
    println!("{less_known} of those refused tell less, {} are changed in another way", counts.failures.len());
    counts.failures.is_empty() && refused > 0 && more_rounds > 0 && less_known > 0
}

/// What a block can need to be changed without a pause.
const AT_ONCE: [Form; 6] =
    [Form::Nothing, Form::Emit, Form::Present, Form::Sequence, Form::Local, Form::Parallel];

/// Forms, sizes from and to, and the outputs of the blocks with two locals that are all looked through.
const STAGES: [(&[Form], usize, usize, u16); 3] = [(&FORMS, 1, 8, 1), (&AT_ONCE, 9, 10, 1), (&AT_ONCE, 9, 10, 2)];

/// How many blocks of a stage there are, and how many of them have an instant that was changed.
fn changed_blocks(stage: (&'static [Form], usize, usize, u16)) -> (usize, usize) {
    let (forms, least, most, outputs) = stage;
    let (mut blocks, mut changed) = (0, 0);
    let mut all = All::new(Alphabet { forms, inputs: 0, outputs, locals: 2, lean: true });
    for size in least..=most {
        all.each(size, &mut |tokens| {
            let header = header_of(0, outputs, tokens);
            let block = decode(&encode_tokens(header, tokens), Fault::None);
            if let Some(block) = block.ok().filter(|block| block.header.locals == 2) {
                blocks += 1;
                let differs = |&phase: &Phase| {
                    let (before, now) = both(&block, phase, 0);
                    before != now
                };
                changed += phases(&block, 32).iter().any(differs) as usize;
            }
        });
    }
    (blocks, changed)
}

/// Prints that no smaller block is changed, and for each change the smallest among random blocks that were made smaller as far
/// as it goes.
pub fn print_smallest(seed: u64) -> bool {
    let mut chance = Chance::new(seed);
    let wanted = [Change::Refused, Change::MoreRounds, Change::LessKnown];
    let mut found: Vec<Vec<Row>> = vec![Vec::new(); wanted.len()];
    for _ in 0..20_000 {
        let (_, block) = some_mixed_block(&mut chance, 8, 24);
        for (change, rows) in wanted.iter().zip(&mut found).filter(|pair| pair.1.len() < 60) {
            let tells = |block: &Block| changed_row(block, *change);
            rows.extend(tells(&block).map(|row| shrunk(row, &tells)));
        }
    }
    let smallest = |rows: &Vec<Row>| rows.iter().min_by_key(|row| row.tokens.len()).map(|row| row.text());
    for (change, rows) in wanted.iter().zip(&found) {
        println!("{change:?}: {}", smallest(rows).unwrap_or_else(|| "none found".to_string()));
    }
    let mut unchanged = true;
    for &(forms, least, most, outputs) in STAGES.iter() {
        let (blocks, changed) = changed_blocks((forms, least, most, outputs));
        let of = format!("{least} to {most} statements of {} forms (2 locals, outputs: {outputs})", forms.len());
        println!("{blocks} blocks of {of}, {changed} changed");
        unchanged = unchanged && changed == 0;
    }
    unchanged && found.iter().all(|rows| !rows.is_empty())
}
