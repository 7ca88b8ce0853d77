//! The blocks that are measured. Each is made by rule, so that every run measures the same bytes.

use crate::small;
use crate::tree::*;

pub struct Shape {
    pub name: String,
    pub statements: usize,
    /// Each is run from fresh, one after the other; most shapes have one.
    pub blocks: Vec<Vec<u8>>,
    /// The input sets that are given again and again, from fresh.
    pub inputs: Vec<u64>,
}

fn shape(name: &str, signals: Signals, inputs: Vec<u64>, root: Tree) -> Shape {
    let statements = count(&root);
    Shape { name: name.to_string(), statements, blocks: vec![bytes(signals, &root)], inputs }
}

/// Signals of the mixed blocks: 8 inputs from 0, 40 outputs from 8, locals from 48.
const INPUTS: u16 = 8;
const OUTPUTS: u16 = 40;
const FIRST_LOCAL: u16 = INPUTS + OUTPUTS;

/// A chain of numbers that is the same on every machine.
pub struct Chain(pub u64);

impl Chain {
    pub fn below(&mut self, n: u16) -> u16 {
        self.0 = self.0.wrapping_mul(6364136223846793005).wrapping_add(1442695040888963407);
        ((self.0 >> 33) % u64::from(n)) as u16
    }
}

/// One part of a mixed block, 12 statements: where an input is present, it emits its output if one of lower number is present, or
/// another input is; then it waits for the next instant and starts over. A signal that it has seen present keeps it quiet.
fn part(chain: &mut Chain, n: u16, seen: u16) -> Tree {
    let output = INPUTS + n % OUTPUTS;
    let lower = INPUTS + chain.below(n % OUTPUTS + 1);
    let tested = if lower == output { chain.below(INPUTS) } else { lower };
    let emitted = present(tested, Tree::Emit(output), Tree::Nothing);
    let heard = present(chain.below(INPUTS), present(seen, Tree::Nothing, emitted), Tree::Nothing);
    again(sequence(sequence(heard, Tree::Pause), Tree::Nothing))
}

/// A local whose body is some parts beside each other and the next local; its signal is emitted where an input is present.
fn nest(chain: &mut Chain, parts: &mut u16, each: u16, level: u16, levels: u16) -> Tree {
    let signal = FIRST_LOCAL + level;
    let seen = if level == 0 { 0 } else { signal - 1 };
    let mut beside = Vec::new();
    for _ in 0..each {
        beside.push(part(chain, *parts, seen));
        *parts += 1;
    }
    if level < levels {
        let told = present(chain.below(INPUTS), Tree::Emit(signal), Tree::Nothing);
        let inner = nest(chain, parts, each, level + 1, levels);
        beside.push(local(signal, sequence(told, inner)));
    }
    all_beside(beside)
}

/// A mixed block of so many statements, with so many nested locals: 13 for each part and 6 for each local, filled up with nothing.
pub fn mixed(statements: usize, locals: u16) -> Shape {
    let mut chain = Chain(statements as u64 * 8 + u64::from(locals));
    let parts = (statements as u16 + 1 - 6 * locals) / 13;
    let mut root = nest(&mut chain, &mut 0, parts / (locals + 1), 0, locals);
    while count(&root) + 2 <= statements {
        root = parallel(root, Tree::Nothing);
    }
    if count(&root) < statements {
        root = trap(root);
    }
    let name = format!("mixed, {} nested locals", locals);
    shape(&name, Signals { inputs: INPUTS, outputs: OUTPUTS, locals }, vec![0b1010_0101, 0b0011_1100, 0b1111_0000, 0b0000_0001], root)
}

/// Locals with long sequences nested between them: each local is the very first part of a sequence of sequences.
pub fn long_sequences(locals: u16) -> Shape {
    let between = (64 - 2 - locals) / locals;
    let mut root = Tree::Nothing;
    for level in (0..locals).rev() {
        for _ in 0..between {
            root = sequence(root, Tree::Nothing);
        }
        root = local(1 + level, root);
    }
    let name = format!("long sequences between {} locals", locals);
    shape(&name, Signals { inputs: 0, outputs: 1, locals }, vec![0], root)
}

/// Loops behind traps around locals: each level may leave its trap or start its loop over, by an output that is settled late.
pub fn restarts(locals: u16) -> Shape {
    let outputs = locals;
    let mut root = Tree::Pause;
    for level in (0..locals).rev() {
        let leaves = present(1 + level, Tree::Exit(0), Tree::Nothing);
        root = trap(again(local(1 + outputs + level, sequence(root, leaves))));
    }
    let late = (0..outputs).map(|n| {
        again(sequence(present(n, Tree::Emit(1 + n), Tree::Nothing), Tree::Pause))
    });
    let root = parallel(all_beside(late.collect()), root);
    let name = format!("restarts behind traps around {} locals", locals);
    shape(&name, Signals { inputs: 1, outputs, locals }, vec![1, 0], root)
}

/// Many outputs that settle one a round: each is emitted only where the one before it is present, and the first never is.
pub fn one_a_round(outputs: u16) -> Shape {
    let parts = (1..outputs).map(|n| present(n - 1, Tree::Emit(n), Tree::Nothing)).collect();
    let name = format!("{} outputs that settle one a round", outputs);
    shape(&name, Signals { inputs: 0, outputs, locals: 0 }, vec![0], all_beside(parts))
}

/// Outputs that settle one a round in loops that wait, inside so many locals: each local settles late too, by one of the outputs, and keeps quiet every
/// other part that stands in it. Beside them so many parts that do nothing.
fn late_tree(outputs: u16, locals: u16, idle: usize) -> Tree {
    let each = outputs / (locals + 1);
    let (mut inside, mut last) = (None, outputs);
    for level in (0..=locals).rev() {
        let first = (level * each).max(1);
        let signal = outputs + level.max(1) - 1;
        let part = |n: u16| {
            let emitted = present(n - 1, Tree::Emit(n), Tree::Nothing);
            let quiet = if level > 0 && n % 2 == 0 { present(signal, Tree::Nothing, emitted) } else { emitted };
            again(sequence(quiet, Tree::Pause))
        };
        let mut beside: Vec<Tree> = (first..last).map(part).collect();
        beside.extend(inside.take());
        if level == 0 {
            beside.extend((0..idle).map(|_| Tree::Nothing));
            return all_beside(beside);
        }
        let told = present(first - 1, Tree::Emit(signal), Tree::Nothing);
        inside = Some(local(signal, parallel(told, all_beside(beside))));
        last = first;
    }
    Tree::Nothing
}

/// 58 outputs of such a block of about 500 statements. From the second instant on every loop is resumed and starts over.
pub fn late(locals: u16) -> Shape {
    const OUTPUTS: u16 = 58;
    let idle = (500 - count(&late_tree(OUTPUTS, locals, 0))) / 2;
    let name = format!("late outputs in {} locals, resumed", locals);
    shape(&name, Signals { inputs: 0, outputs: OUTPUTS, locals }, vec![0, 0, 0, 0], late_tree(OUTPUTS, locals, idle))
}

/// 128 pauses that are all active, beside each other under a path of 56 statements: as many pairs to be tested as there may be, each as deep as it may be.
pub fn pauses_deep() -> Shape {
    let mut root = all_beside((0..128).map(|_| Tree::Pause).collect());
    for _ in 0..55 {
        root = sequence(Tree::Nothing, root);
    }
    shape("128 pauses under a path of 56", Signals { inputs: 0, outputs: 1, locals: 0 }, vec![0, 0, 0, 0], again(root))
}

/// Random blocks of so many statements, as blocks of the trade are small.
pub fn small(statements: usize) -> Shape {
    let mut chain = Chain(statements as u64);
    let blocks = (0..32).map(|_| small::block(&mut chain, statements)).collect();
    let inputs = vec![0b01, 0b10, 0b11, 0b00];
    Shape { name: "32 random blocks".to_string(), statements, blocks, inputs }
}

/// The slowest block that we know: 16 loops that may each start over, behind traps, inside 6 locals, around tests of 57 outputs that settle one a
/// round. From its second instant on every test is visited 64 times for each of the loops, in every round.
pub fn slowest() -> Shape {
    const LOCALS: u16 = 6;
    const OUTPUTS: u16 = 57;
    let leaves = || sequence(Tree::Pause, present(OUTPUTS - 1, Tree::Exit(0), Tree::Nothing));
    let chain = (1..OUTPUTS).map(|n| present(n - 1, Tree::Emit(n), Tree::Nothing));
    let tests = chain.chain((0..41).map(|n| present(OUTPUTS - 1 - n % 3, Tree::Nothing, Tree::Nothing)));
    let mut root = trap(again(sequence(all_beside(tests.collect()), leaves())));
    for _ in 1..16 {
        root = trap(again(sequence(root, present(OUTPUTS - 1, Tree::Exit(0), Tree::Nothing))));
    }
    for level in (0..LOCALS).rev() {
        root = local(OUTPUTS + level, root);
    }
    shape("the slowest that we know", Signals { inputs: 0, outputs: OUTPUTS, locals: LOCALS }, vec![0, 0, 0, 0], root)
}

/// Every shape, in the order in which they are printed; the worst ones with so many locals.
pub fn all(worst: u16) -> Vec<Shape> {
    let mut shapes = vec![mixed(500, 0), mixed(500, 3), mixed(500, 6)];
    shapes.push(long_sequences(worst));
    shapes.push(restarts(worst));
    shapes.push(one_a_round(64));
    shapes.extend([0, worst.min(3), worst + 2].iter().map(|&locals| late(locals)));
    shapes.push(pauses_deep());
    shapes.extend([10, 20, 50].iter().map(|&n| small(n)));
    shapes.extend([50, 100, 200, 500].iter().map(|&n| mixed(n, 2)));
    shapes
}
