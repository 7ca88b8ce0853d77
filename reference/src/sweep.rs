//! The coherence law over every small block, every legal state and every input.

use crate::all::{active_sets, All, Alphabet};
use crate::block::{decode, encode_tokens, Block, FORMS};
use crate::coherence::{only_coherent, reactions, Slip};
use crate::fault::Fault;
use crate::reaction::Phase;
use crate::row::{header_of, Row};
use crate::rules::Rules;

#[derive(Default)]
pub struct Counts {
    pub shapes: usize,
    pub blocks: usize,
    pub instants: usize,
    pub answered: usize,
    /// Refused instants by the number of their coherent reactions: none, one, more.
    pub refused: [usize; 3],
    pub failures: Vec<String>,
}

impl Counts {
    /// Counts one instant and checks it if it was answered.
    pub fn instant(&mut self, block: &Block, phase: Phase, given: u64) {
        let reaction = Rules { fault: Fault::None }.react(block, phase, given);
        let found = reactions(Slip::None, block, phase, given);
        self.instants += 1;
        let rounds_good = 1 <= reaction.rounds && reaction.rounds <= block.header.outputs as u32 + 1;
        let good = match reaction.code {
            Some(_) => {
                self.answered += 1;
                only_coherent(&reaction, &found)
            }
            None => {
                self.refused[found.len().min(2)] += 1;
                true
            }
        };
        if !good || !rounds_good {
            let (inputs, outputs) = (block.header.inputs, block.header.outputs);
            let row = Row { inputs, outputs, tokens: block.root.tokens(), phase, given };
            self.failures.push(format!("{} has {} coherent reactions", row.text(), found.len()));
        }
    }

    /// Every instant of a block: fresh, finished and each legal running state, with every input.
    pub fn block(&mut self, block: &Block) {
        self.blocks += 1;
        let running = active_sets(&block.root, usize::MAX);
        let phases = running.into_iter().map(Phase::Running);
        for phase in [Phase::Fresh, Phase::Finished].iter().copied().chain(phases) {
            (0..1 << block.header.inputs).for_each(|given| self.instant(block, phase, given));
        }
    }

    pub fn print(&self) -> bool {
        println!("{} trees, {} good blocks, {} instants", self.shapes, self.blocks, self.instants);
        println!("{} answered, each the only coherent reaction but for the failures", self.answered);
        let [none, one, more] = self.refused;
        println!("refused as not constructive: {none} with no coherent reaction, {one} with one, {more} with more");
        self.failures.iter().take(20).for_each(|failure| println!("failed: {failure}"));
        println!("{} failures", self.failures.len());
        self.failures.is_empty()
    }
}

/// All blocks up to this many statements with one input, one output and one local.
pub fn sweep(most: usize) -> Counts {
    let mut counts = Counts::default();
    let mut all = All::new(Alphabet { forms: &FORMS, inputs: 1, outputs: 1, locals: 1, lean: false });
    for size in 1..=most {
        all.each(size, &mut |tokens| {
            counts.shapes += 1;
            let bytes = encode_tokens(header_of(1, 1, tokens), tokens);
            if let Ok(block) = decode(&bytes, Fault::None) {
                counts.block(&block);
            }
        });
    }
    counts
}
