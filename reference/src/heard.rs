//! Inputs not heard: an answer given with unknown inputs is the answer under whatever more is heard, but for the rounds.
//! Every hearing of few inputs is tried with every further one; the coherence law and the circuits stand beside the rules.

use crate::all::{All, Alphabet};
use crate::block::{decode, encode_tokens, Block, FORMS};
use crate::chance::Chance;
use crate::circuit::Circuit;
use crate::circuits::agree;
use crate::coherence::{only_coherent, reactions, Slip};
use crate::double::doubled;
use crate::fault::Fault;
use crate::generate::{phases, some_block, some_phase, Wish};
use crate::mesh::Mesh;
use crate::mutate::some_mixed_block;
use crate::reaction::{Phase, Reaction};
use crate::row::{header_of, words};
use crate::rules::Rules;
use crate::text::write_statement;
use crate::values::{signal_bits, Heard};

/// The wrong rules that this has to tell.
const TOLD: [Fault; 4] =
    [Fault::UnknownInputAbsent, Fault::UnknownInputPresent, Fault::UnknownInputRefuses, Fault::HeardTurnedRound];

/// Every way to hear of so many inputs: each present, absent or not heard.
pub fn hearings(inputs: u16) -> Vec<Heard> {
    let mut all = vec![Heard { present: 0, absent: 0 }];
    for s in 0..inputs {
        let bit = 1 << s;
        let more = |h: &Heard| [*h, Heard { present: h.present | bit, ..*h }, Heard { absent: h.absent | bit, ..*h }];
        all = all.iter().flat_map(more).collect();
    }
    all
}

/// Whether one hears all that the other does, and perhaps more.
pub fn goes_on(less: Heard, more: Heard) -> bool {
    less.present & !more.present == 0 && less.absent & !more.absent == 0
}

/// Outputs, code and next state; rounds may differ.
fn answer(r: &Reaction) -> (u64, u64, u32, Option<u32>, Phase) {
    (r.present, r.absent, r.undecided, r.code, r.next)
}

struct Counts {
    fault: Fault,
    blocks: usize,
    instants: usize,
    /// With an input not heard: answered, and refused.
    answered: usize,
    refused: usize,
    /// Refused, though every choice for the inputs not heard is answered, and alike.
    alike: usize,
    further: usize,
    /// Answered after more rounds than with more heard.
    slower: usize,
    failures: Vec<String>,
}

impl Counts {
    fn new(fault: Fault) -> Counts {
        Counts {
            fault, blocks: 0, instants: 0, answered: 0, refused: 0, alike: 0, further: 0, slower: 0, failures: Vec::new(),
        }
    }

    fn fail(&mut self, block: &Block, phase: Phase, heard: Heard, why: &str) {
        let reaction = Rules { fault: self.fault }.react_heard(block, phase, heard);
        let statement = write_statement(&block.root.tokens());
        self.failures.push(format!("{statement} {phase:?} {heard:?}: {}, {why}", words(block, &reaction)));
    }

    /// One state of a block with every hearing.
    fn state(&mut self, block: &Block, phase: Phase) {
        let rules = Rules { fault: self.fault };
        let inputs = signal_bits(0, block.header.inputs);
        let all: Vec<(Heard, Reaction)> =
            hearings(block.header.inputs).into_iter().map(|heard| (heard, rules.react_heard(block, phase, heard))).collect();
        for (heard, reaction) in &all {
            self.instants += 1;
            let later: Vec<&(Heard, Reaction)> = all.iter().filter(|other| goes_on(*heard, other.0)).collect();
            later.iter().for_each(|&&(more, ref other)| self.compare(block, phase, (*heard, reaction), (more, other)));
            if heard.present | heard.absent == inputs {
                continue;
            }
            let whole = later.iter().filter(|other| other.0.present | other.0.absent == inputs);
            let mut choices: Vec<_> = whole.map(|other| answer(&other.1)).collect();
            choices.dedup();
            self.answered += reaction.code.is_some() as usize;
            self.refused += reaction.code.is_none() as usize;
            self.alike += (reaction.code.is_none() && choices.len() == 1 && choices[0].3.is_some()) as usize;
        }
    }

    /// What is given with less heard beside what is given with more.
    fn compare(&mut self, block: &Block, phase: Phase, less: (Heard, &Reaction), more: (Heard, &Reaction)) {
        let (one, other) = (less.1, more.1);
        let inputs = signal_bits(0, block.header.inputs);
        self.further += 1;
        if one.present & !other.present != 0 || one.absent & !other.absent != 0 {
            return self.fail(block, phase, less.0, &format!("but a status is lost with {:?}", more.0));
        }
        if one.code.is_none() {
            return;
        }
        if answer(one) != answer(other) || one.rounds < other.rounds {
            return self.fail(block, phase, less.0, &format!("but {} with {:?}", words(block, other), more.0));
        }
        self.slower += (one.rounds > other.rounds) as usize;
        let whole = more.0.present | more.0.absent == inputs;
        if whole && !only_coherent(one, &reactions(Slip::None, block, phase, more.0.present)) {
            self.fail(block, phase, less.0, &format!("which is not the only coherent reaction with {:?}", more.0));
        }
    }

    /// One state of a block with every hearing, by its circuit.
    fn circuit(&mut self, block: &Block, circuit: &Circuit, phase: Phase) {
        if phase == Phase::Finished {
            return;
        }
        for heard in hearings(block.header.inputs) {
            let reaction = Rules { fault: self.fault }.react_heard(block, phase, heard);
            if !agree(&reaction, &circuit.settle_heard(phase, heard)) {
                self.fail(block, phase, heard, "but not by the circuit");
            }
        }
    }

    /// Every hearing in these states, by the rules and, where its loops can be doubled, by the circuit.
    fn block(&mut self, block: &Block, all: &[Phase]) {
        self.blocks += 1;
        all.iter().for_each(|&phase| self.state(block, phase));
        if let Some(double) = doubled(block) {
            let circuit = Circuit::new(&double);
            let states = phases(&double, 4);
            states.into_iter().for_each(|phase| self.circuit(&double, &circuit, phase));
        }
    }

    /// All blocks up to this many statements, in every state.
    fn small(&mut self, most: usize, (inputs, outputs, locals): (u16, u16, u16)) {
        let mut all = All::new(Alphabet { forms: &FORMS, inputs, outputs, locals, lean: true });
        for size in 1..=most {
            all.each(size, &mut |tokens| {
                let bytes = encode_tokens(header_of(inputs, outputs, tokens), tokens);
                if let Ok(block) = decode(&bytes, Fault::None) {
                    self.block(&block, &phases(&block, usize::MAX));
                }
            });
        }
    }

    /// So many random blocks with up to three inputs.
    fn random(&mut self, count: usize, chance: &mut Chance) {
        for n in 0..count {
            // A fault need not be told twice.
            if self.fault != Fault::None && !self.failures.is_empty() {
                return;
            }
            let block = match n % 4 {
                0 => some_mixed_block(chance, 4, 16).1,
                1 => Mesh::some(chance, 4).block(chance),
                _ => {
                    let wish = Wish { inputs: chance.pick(&[1, 2, 2, 3]), ..Wish::some(chance, 4, 24) };
                    some_block(chance, wish).1
                }
            };
            let states = [some_phase(&block, chance), some_phase(&block, chance)];
            self.block(&block, &states);
        }
    }
}

/// All small blocks up to a size and so many random ones; false if an answer does not stay, or if a wrong rule is not told.
pub fn print_heard(most: usize, count: usize, seed: u64) -> bool {
    let mut counts = Counts::new(Fault::None);
    counts.small(most, (1, 1, 1));
    counts.small(most - most.min(1), (2, 1, 0));
    counts.random(count, &mut Chance::new(seed));
    counts.failures.sort_by_key(|failure| failure.len());
    counts.failures.iter().take(20).for_each(|failure| println!("failed hearing: {failure}"));
    let missed = TOLD.iter().filter(|&&fault| {
        let mut wrong = Counts::new(fault);
        wrong.random(count, &mut Chance::new(seed));
        wrong.failures.is_empty()
    });
    let missed = missed.inspect(|fault| println!("{fault:?}: not told apart by {count} blocks ({})", fault.says())).count();
    let Counts { blocks, instants, answered, refused, alike, further, slower, failures, .. } = counts;
    println!("{instants} instants of {blocks} blocks with every hearing, {further} with more heard, {} failed", failures.len());
    println!("with inputs not heard {answered} are answered and {refused} refused, {alike} of which every choice would answer alike;");
    println!("{slower} times an answer takes more rounds than with more heard; {} wrong rules told apart, {missed} not", TOLD.len() - missed);
    failures.is_empty() && missed == 0 && answered > 0 && refused > 0 && slower > 0
}
