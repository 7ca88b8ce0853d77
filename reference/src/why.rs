//! Reasons by a second way: what is reached is taken from the circuit of the block with its loops doubled, and what is executed
//! from the coherent execution. Every question about every signal and statement is then answered from these sets.

use crate::all::{All, Alphabet};
use crate::block::{decode, encode, encode_tokens, Block, Form, Statement, FORMS};
use crate::chance::Chance;
use crate::circuit::Circuit;
use crate::coherence::{reactions, Slip};
use crate::double::doubled_from;
use crate::fault::{Fault, REACHED, WHY};
use crate::generate::{phases, some_block, some_phase, Wish};
use crate::heard::{goes_on, hearings};
use crate::heard_cases::some_heard;
use crate::mesh::Mesh;
use crate::mutate::some_mixed_block;
use crate::reaction::{Phase, Reaction};
use crate::reason::{reached, reason, Asked, Reached};
use crate::row::header_of;
use crate::rules::Rules;
use crate::state::{state_record, Answer, QUESTION};
use crate::text::write_statement;
use crate::values::{signal_bit, signal_bits, Heard};

/// The circuit of a block with doubled loops, with the way back to the block's own numbers.
struct Second {
    circuit: Circuit,
    from: Vec<Option<usize>>,
    /// For each pause of the block the first of its copies, which is the one that is resumed.
    pauses: Vec<usize>,
}

impl Second {
    fn new(block: &Block) -> Option<Second> {
        let (double, from) = doubled_from(block)?;
        let (tokens, own) = (double.root.tokens(), block.root.tokens());
        let copies: Vec<usize> = (0..tokens.len()).filter(|&n| tokens[n].0 == Form::Pause).collect();
        let first = |n: usize| copies.iter().position(|&copy| from[copy] == Some(n));
        let pauses = (0..own.len()).filter(|&n| own[n].0 == Form::Pause).filter_map(first).collect();
        Some(Second { circuit: Circuit::new(&double), from, pauses })
    }

    fn reached(&self, phase: Phase, heard: Heard) -> Reached {
        let phase = match phase {
            Phase::Finished => return Reached::default(),
            Phase::Fresh => Phase::Fresh,
            Phase::Running(active) => {
                let copies = self.pauses.iter().enumerate().filter(|pair| active >> pair.0 & 1 == 1);
                Phase::Running(copies.fold(0, |all, pair| all | 1 << pair.1))
            }
        };
        let found = self.circuit.reached(phase, heard);
        let own = |n: &usize| self.from[*n];
        Reached { all: found.all.iter().filter_map(own).collect(), undecided: found.undecided.iter().filter_map(own).collect(), ..Reached::default() }
    }
}

/// What is reached by the circuit; by the rules where the circuit would be too large.
pub fn reached_by_circuit(block: &Block, phase: Phase, heard: Heard) -> Reached {
    match Second::new(block) {
        Some(second) => second.reached(phase, heard),
        None => reached(block, phase, heard, Fault::None),
    }
}

struct Counts {
    fault: Fault,
    blocks: usize,
    instants: usize,
    refused: usize,
    /// Refused instants with more than one undecided test.
    several: usize,
    executions: usize,
    questions: usize,
    told: [usize; 3],
    failures: Vec<String>,
}

impl Counts {
    fn new(fault: Fault) -> Counts {
        Counts {
            fault, blocks: 0, instants: 0, refused: 0, several: 0, executions: 0, questions: 0, told: [0; 3],
            failures: Vec::new(),
        }
    }

    fn fail(&mut self, block: &Block, phase: Phase, heard: Heard, why: String) {
        let statement = write_statement(&block.root.tokens());
        self.failures.push(format!("{statement} {phase:?} {heard:?}: {why}"));
    }

    /// One instant: the sets by both ways, the executions, and every question.
    fn instant(&mut self, block: &Block, second: &Second, phase: Phase, heard: Heard) {
        let reaction = Rules { fault: Fault::None }.react_heard(block, phase, heard);
        let (one, other) = (reached(block, phase, heard, self.fault), second.reached(phase, heard));
        self.instants += 1;
        self.refused += reaction.code.is_none() as usize;
        self.several += (other.undecided.len() > 1) as usize;
        if (&one.all, &one.undecided) != (&other.all, &other.undecided) {
            self.fail(block, phase, heard, format!("{one:?}, by the circuit {other:?}"));
        }
        // An undecided test is there exactly when 13 is given.
        if reaction.code.is_none() == other.undecided.is_empty() {
            self.fail(block, phase, heard, format!("code {:?} with {:?} undecided", reaction.code, other.undecided));
        }
        if reaction.code.is_some() {
            self.executions(block, phase, heard, &other);
        }
        self.questions(block, phase, heard, &reaction, &other);
    }

    /// What is executed under every choice for the inputs not heard is what was reached; in a finished block it is nothing.
    fn executions(&mut self, block: &Block, phase: Phase, heard: Heard, other: &Reached) {
        let inputs = block.header.inputs;
        if phase == Phase::Finished || block.statements > 128 || inputs > 4 {
            return;
        }
        let all = signal_bits(0, inputs);
        let whole = hearings(inputs).into_iter().filter(|more| goes_on(heard, *more) && more.present | more.absent == all);
        for more in whole {
            self.executions += 1;
            for outcome in reactions(Slip::None, block, phase, more.present) {
                let executed = (0..block.statements).filter(|n| outcome.executed >> n & 1 == 1).collect();
                if other.all != executed {
                    self.fail(block, phase, heard, format!("{:?}, executed {executed:?}", other.all));
                }
            }
        }
    }

    /// Every question about every signal and statement, and some that are not there.
    fn questions(&mut self, block: &Block, phase: Phase, heard: Heard, reaction: &Reaction, other: &Reached) {
        let (bytes, state) = (encode(block.header, &block.root), state_record(block, phase));
        let signals = (block.header.inputs + block.header.outputs + block.header.locals) as u64;
        let present = (0..=signals).map(Asked::Present);
        let executed = (0..=block.statements as u64).map(Asked::NotExecuted);
        for asked in Some(Asked::Refused).into_iter().chain(present).chain(executed) {
            let wanted = match expected(block, asked, reaction, other) {
                Some(statement) => Answer { statement, ..Answer::default() },
                None => Answer { number: QUESTION, ..Answer::default() },
            };
            let got = reason(&bytes, &state, heard, asked, self.fault);
            self.questions += 1;
            self.told[asked.numbers().0 as usize] += (got.number == 0) as usize;
            if got != wanted {
                self.fail(block, phase, heard, format!("{asked:?} gives {got:?}, not {wanted:?}"));
            }
        }
    }

    /// All blocks up to this many statements in every state with every hearing.
    fn small(&mut self, most: usize) {
        let mut all = All::new(Alphabet { forms: &FORMS, inputs: 1, outputs: 1, locals: 1, lean: true });
        for size in 1..=most {
            all.each(size, &mut |tokens| {
                let block = decode(&encode_tokens(header_of(1, 1, tokens), tokens), Fault::None).ok();
                if let Some((block, second)) = block.and_then(|block| Second::new(&block).map(|second| (block, second))) {
                    self.blocks += 1;
                    for phase in phases(&block, usize::MAX) {
                        hearings(1).into_iter().for_each(|heard| self.instant(&block, &second, phase, heard));
                    }
                }
            });
        }
    }

    /// So many random blocks, some instants of each.
    fn random(&mut self, count: usize, chance: &mut Chance) {
        for n in 0..count {
            // A fault need not be told twice.
            if self.fault != Fault::None && !self.failures.is_empty() {
                return;
            }
            let block = match n % 4 {
                0 => Mesh::some(chance, 4).block(chance),
                1 => {
                    let wish = Wish { inputs: chance.pick(&[0, 1, 2, 3]), ..Wish::some(chance, 4, 40) };
                    some_block(chance, wish).1
                }
                _ => some_mixed_block(chance, 4, 20).1,
            };
            let second = match Second::new(&block) {
                Some(second) => second,
                None => continue,
            };
            self.blocks += 1;
            for _ in 0..4 {
                let (phase, heard) = (some_phase(&block, chance), some_heard(block.header.inputs, chance));
                self.instant(&block, &second, phase, heard);
            }
        }
    }
}

/// The answer as the request says it, from the sets of the second way alone.
fn expected(block: &Block, asked: Asked, reaction: &Reaction, other: &Reached) -> Option<usize> {
    let answered = reaction.code.is_some();
    let tokens = block.root.tokens();
    let (inputs, outputs) = (block.header.inputs as u64, block.header.outputs as u64);
    match asked {
        Asked::Refused => other.undecided.iter().copied().min().filter(|_| !answered),
        Asked::Present(n) => {
            let present = answered && n >= inputs && n < inputs + outputs && reaction.present & signal_bit(n as u16) != 0;
            let emits = |at: &&usize| tokens[**at] == (Form::Emit, n as u16);
            if present { other.all.iter().find(emits).copied() } else { None }
        }
        Asked::NotExecuted(n) => {
            let n = n as usize;
            let emit = answered && tokens.get(n).map_or(false, |token| token.0 == Form::Emit);
            // The statements whose numbers enclose the emit's are those above it, the topmost first.
            let above = |at: &usize| around(&block.root, *at, n);
            let top = (0..=n).filter(above).find(|at| !other.all.contains(at));
            if emit { top } else { None }
        }
    }
}

/// Whether the statement with one number holds the one with the other number, or is it.
fn around(root: &Statement, at: usize, n: usize) -> bool {
    root.find(at).map_or(false, |p| at <= n && n < at + p.tokens().len())
}

/// All small blocks up to a size and so many random ones; false if a reason is not the one by the second way.
pub fn print_why(most: usize, count: usize, seed: u64) -> bool {
    let mut counts = Counts::new(Fault::None);
    counts.small(most);
    counts.random(count, &mut Chance::new(seed));
    counts.failures.sort_by_key(|failure| failure.len());
    counts.failures.iter().take(20).for_each(|failure| println!("failed reason: {failure}"));
    let Counts { blocks, instants, refused, several, executions, questions, told: [r, p, e], failures, .. } = counts;
    println!("{instants} instants of {blocks} blocks, {refused} refused, each with an undecided test, {several} with several; {executions} executions");
    println!("{questions} questions: why refused {r}, why present {p}, why not executed {e}, the rest not so; {} failed", failures.len());
    // Inputs are legal here, so the order of the last two tests is for the cases to tell. That an arm is hidden shows in no
    // answer: where the first arm has no code it has an undecided test, and a lower one.
    let all = WHY.iter().chain(REACHED).copied();
    let faults: Vec<Fault> = all.filter(|&fault| fault != Fault::QuestionBeforeInput).collect();
    let missed = faults.iter().filter(|&&fault| {
        let mut wrong = Counts::new(fault);
        wrong.random(count, &mut Chance::new(seed));
        wrong.failures.is_empty()
    });
    let missed = missed.inspect(|fault| println!("{fault:?}: not told apart by {count} blocks ({})", fault.says())).count();
    println!("{} wrong reasons told apart, {missed} not", faults.len() - missed);
    failures.is_empty() && missed == 0 && several > 0 && r > 0 && p > 0 && e > 0
}
