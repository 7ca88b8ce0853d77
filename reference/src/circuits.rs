//! Blocks as circuits beside the rules: outputs, codes and next states of single instants and of runs.

use crate::all::{All, Alphabet};
use crate::block::{decode, encode_tokens, Block, Statement, FORMS};
use crate::chance::Chance;
use crate::circuit::{Circuit, Settled};
use crate::double::doubled;
use crate::fault::Fault;
use crate::generate::{phases, some_block, some_inputs, some_phase, Wish};
use crate::mutate::some_mixed_block;
use crate::reaction::{active_of, begin_of, Phase, Reaction};
use crate::row::{header_of, Row};
use crate::rules::Rules;
use crate::values::{Event, Mark};

/// How long a run is.
const RUN: usize = 6;

#[derive(Default)]
struct Counts {
    blocks: usize,
    instants: usize,
    answered: usize,
    runs: usize,
    /// Runs that differ where loop bodies are not doubled.
    single: usize,
    /// Instants in which the older rule of a local's absence differs from the circuit, and those of them that it answers.
    older: usize,
    older_answers: usize,
    failures: Vec<String>,
}

/// Whether outputs, code and next state are the same; a refusal has no code that must be given.
pub fn agree(reaction: &Reaction, settled: &Settled) -> bool {
    let code = reaction.code.map_or(0, |code| 1 << code);
    let next = reaction.code.map_or(true, |_| settled.next == Some(active_of(reaction.next)));
    (reaction.present, reaction.absent, code) == (settled.present, settled.absent, settled.must) && next
}

/// The codes that can be given in the final round.
fn final_codes(block: &Block, phase: Phase, given: u64, reaction: &Reaction) -> u32 {
    let (rules, nothing) = (Rules { fault: Fault::None }, Statement::lone_nothing());
    let begin = begin_of(block, given);
    let e = Event { present: begin.present | reaction.present, absent: begin.absent | reaction.absent };
    rules.can(rules.root_of(block, phase, &nothing), Mark::Plus, e).codes
}

/// A run by the rules beside a circuit from fresh: the first instant in which they differ. A refused one keeps both as they were.
fn differing(block: &Block, circuit: &Circuit, inputs: &[u64]) -> Option<(Phase, u64, Settled)> {
    let (mut phase, mut registers) = (Phase::Fresh, Phase::Fresh);
    for &given in inputs {
        let settled = circuit.settle(registers, given);
        let reaction = Rules { fault: Fault::None }.react(block, phase, given);
        let code = reaction.code.map_or(0, |code| 1 << code);
        if (reaction.present, reaction.absent, code) != (settled.present, settled.absent, settled.must) {
            return Some((phase, given, settled));
        }
        match settled.must {
            0 => {}
            1 => return None,
            _ => registers = Phase::Running(settled.next.unwrap_or(0)),
        }
        phase = reaction.next;
    }
    None
}

impl Counts {
    fn fail(&mut self, block: &Block, phase: Phase, given: u64, settled: &Settled) {
        let (inputs, outputs) = (block.header.inputs, block.header.outputs);
        let row = Row { inputs, outputs, tokens: block.root.tokens(), phase, given };
        self.failures.push(format!("{}, by the circuit {settled:?}", row.text()));
    }

    /// One instant of a doubled block, by the rules and by its circuit.
    fn instant(&mut self, block: &Block, circuit: &Circuit, phase: Phase, given: u64) {
        if phase == Phase::Finished {
            return;
        }
        let settled = circuit.settle(phase, given);
        let reaction = Rules { fault: Fault::None }.react(block, phase, given);
        self.instants += 1;
        self.answered += reaction.code.is_some() as usize;
        if !agree(&reaction, &settled) || settled.can != final_codes(block, phase, given, &reaction) {
            self.fail(block, phase, given, &settled);
        }
        let older = Rules { fault: Fault::AbsenceUnderPlus }.react(block, phase, given);
        if !agree(&older, &settled) {
            self.older += 1;
            self.older_answers += older.code.is_some() as usize;
        }
    }

    /// All blocks up to this many statements with one input, one output and one local, in every state.
    fn small(&mut self, most: usize) {
        let mut all = All::new(Alphabet { forms: &FORMS, inputs: 1, outputs: 1, locals: 1, lean: false });
        for size in 1..=most {
            all.each(size, &mut |tokens| {
                let block = decode(&encode_tokens(header_of(1, 1, tokens), tokens), Fault::None);
                if let Some(block) = block.ok().and_then(|block| doubled(&block)) {
                    let circuit = Circuit::new(&block);
                    self.blocks += 1;
                    for phase in phases(&block, usize::MAX) {
                        (0..2).for_each(|given| self.instant(&block, &circuit, phase, given));
                    }
                }
            });
        }
    }

    /// So many random blocks: four instants in some state, and a run.
    fn random(&mut self, count: usize, chance: &mut Chance) {
        let more = self.blocks + count;
        while self.blocks < more {
            let block = match chance.below(8) {
                0 => {
                    let wish = Wish::some(chance, 20, 80);
                    some_block(chance, wish).1
                }
                _ => some_mixed_block(chance, 4, 18).1,
            };
            let double = match doubled(&block) {
                Some(double) => double,
                None => continue,
            };
            let circuit = Circuit::new(&double);
            self.blocks += 1;
            for _ in 0..4 {
                let (phase, given) = (some_phase(&double, chance), some_inputs(&double, chance));
                self.instant(&double, &circuit, phase, given);
            }
            let inputs: Vec<u64> = (0..RUN).map(|_| some_inputs(&block, chance)).collect();
            self.runs += 1;
            // The block as it is, by the rules; its loops doubled, or not, as a circuit.
            if let Some((phase, given, settled)) = differing(&block, &circuit, &inputs) {
                self.fail(&block, phase, given, &settled);
            }
            self.single += differing(&block, &Circuit::new(&block), &inputs).is_some() as usize;
        }
    }
}

/// All small blocks up to a size and so many random ones; false if a circuit and the rules differ, or if what is wrong is not told:
/// the older rule, and loops that are not doubled.
pub fn print_circuits(most: usize, count: usize, seed: u64) -> bool {
    let mut counts = Counts::default();
    counts.small(most);
    counts.random(count, &mut Chance::new(seed));
    counts.failures.sort_by_key(|failure| failure.len());
    counts.failures.iter().take(20).for_each(|failure| println!("failed circuit: {failure}"));
    let Counts { blocks, instants, answered, runs, single, older, older_answers, .. } = counts;
    let failed = counts.failures.len();
    println!("{blocks} blocks as circuits, {instants} instants ({answered} answered) and {runs} runs, {failed} differ from the rules");
    println!("the older rule differs in {older} instants, {older_answers} of which it answers; without doubled loops {single} runs differ");
    failed == 0 && older > 0 && single > 0
}
