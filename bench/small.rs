//! Random blocks of a few statements: 2 inputs, 3 outputs, and locals as they come.

use crate::shapes::Chain;
use crate::tree::*;

const INPUTS: u16 = 2;
const OUTPUTS: u16 = 3;
const FIRST_LOCAL: u16 = INPUTS + OUTPUTS;

/// What stands around a statement.
#[derive(Clone, Copy)]
struct Around {
    traps: u16,
    nested: u16,
    /// The locals in whose scope it stands.
    scope: u64,
}

/// Locals are declared in the order in which they are written, as a block has to number them.
struct Maker<'a> {
    chain: &'a mut Chain,
    locals: u16,
}

/// A block of so many statements.
pub fn block(chain: &mut Chain, statements: usize) -> Vec<u8> {
    let mut maker = Maker { chain, locals: 0 };
    let root = maker.any(statements, Around { traps: 0, nested: 0, scope: 0 });
    bytes(Signals { inputs: INPUTS, outputs: OUTPUTS, locals: maker.locals }, &root)
}

impl Maker<'_> {
    /// A signal that may be tested here, or emitted where it is none of the inputs.
    fn signal(&mut self, first: u16, around: Around) -> u16 {
        loop {
            let s = first + self.chain.below(FIRST_LOCAL + self.locals - first);
            if s < FIRST_LOCAL || around.scope >> s & 1 == 1 {
                return s;
            }
        }
    }

    fn leaf(&mut self, around: Around) -> Tree {
        match self.chain.below(8) {
            0 | 1 | 2 => Tree::Pause,
            3 | 4 | 5 => Tree::Emit(self.signal(INPUTS, around)),
            6 if around.traps > 0 => Tree::Exit(self.chain.below(around.traps)),
            _ => Tree::Nothing,
        }
    }

    /// A statement of just so many.
    fn any(&mut self, size: usize, around: Around) -> Tree {
        if size < 2 {
            return self.leaf(around);
        }
        let one = size < 3 || self.chain.below(3) == 0;
        match if one { self.chain.below(4) } else { 4 + self.chain.below(4) } {
            0 if around.traps < 16 => trap(self.any(size - 1, Around { traps: around.traps + 1, ..around })),
            1 if around.nested < 6 => self.scope(size, around),
            2 if size > 3 => {
                let first = self.any(size - 3, around);
                again(sequence(first, Tree::Pause))
            }
            0..=3 => {
                let s = self.signal(0, around);
                suspend(s, self.any(size - 1, around))
            }
            4 => {
                let s = self.signal(0, around);
                let (then, other) = self.parts(size, around);
                present(s, then, other)
            }
            5 | 6 => {
                let (first, second) = self.parts(size, around);
                sequence(first, second)
            }
            _ => {
                let (one, other) = self.parts(size, around);
                parallel(one, other)
            }
        }
    }

    fn scope(&mut self, size: usize, around: Around) -> Tree {
        let s = FIRST_LOCAL + self.locals;
        self.locals += 1;
        local(s, self.any(size - 1, Around { nested: around.nested + 1, scope: around.scope | 1 << s, ..around }))
    }

    fn parts(&mut self, size: usize, around: Around) -> (Tree, Tree) {
        let first = 1 + usize::from(self.chain.below(size as u16 - 2));
        let one = self.any(first, around);
        (one, self.any(size - 1 - first, around))
    }
}
