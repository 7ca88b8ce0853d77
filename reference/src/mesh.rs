//! Random blocks of emit, parallel, and present with nothing in one branch, so that one output settles another.

use crate::block::{decode, encode_tokens, Block, Form, Token};
use crate::chance::Chance;
use crate::fault::Fault;
use crate::row::header_of;

/// What such a block is to be like.
#[derive(Clone, Copy)]
pub struct Mesh {
    pub inputs: u16,
    pub outputs: u16,
    /// How many emits there are, and how many tests may stand around one of them.
    pub emits: usize,
    pub depth: usize,
}

impl Mesh {
    /// A few signals, and about as many emits as make them wait for each other.
    pub fn some(chance: &mut Chance, outputs: usize) -> Mesh {
        let outputs = 1 + chance.below(outputs) as u16;
        let emits = 1 + chance.below(3 * outputs as usize);
        Mesh { inputs: chance.below(4) as u16, outputs, emits, depth: 1 + chance.below(4) }
    }

    pub fn block(self, chance: &mut Chance) -> Block {
        let mut tokens = Vec::new();
        self.put(self.emits, self.depth, chance, &mut tokens);
        let bytes = encode_tokens(header_of(self.inputs, self.outputs, &tokens), &tokens);
        decode(&bytes, Fault::None).expect("a mesh is a good block")
    }

    /// So many emits under at most so many tests.
    fn put(self, emits: usize, depth: usize, chance: &mut Chance, tokens: &mut Vec<Token>) {
        if depth > 0 && chance.percent(if emits == 1 { 70 } else { 25 }) {
            let signal = chance.below((self.inputs + self.outputs) as usize) as u16;
            tokens.push((Form::Present, signal));
            let then = chance.percent(50);
            if !then {
                tokens.push((Form::Nothing, 0));
            }
            self.put(emits, depth - 1, chance, tokens);
            if then {
                tokens.push((Form::Nothing, 0));
            }
        } else if emits > 1 {
            let left = 1 + chance.below(emits - 1);
            tokens.push((Form::Parallel, 0));
            self.put(left, depth, chance, tokens);
            self.put(emits - left, depth, chance, tokens);
        } else {
            tokens.push((Form::Emit, self.inputs + chance.below(self.outputs as usize) as u16));
        }
    }
}
