//! The maze beside the rounds: winning, losing and draw are present, absent and undecided. And the calls that ask for a maze.

use crate::all::{All, Alphabet};
use crate::block::{decode, encode_tokens, Block, Form};
use crate::cases::{some_edge_block, spoil, with_version, Call, Case};
use crate::chance::Chance;
use crate::edge_calls::{bad_blocks, EdgeCall};
use crate::edges::block_of;
use crate::fault::{Fault, MAZES};
use crate::generate::some_inputs;
use crate::maze::{of_form, Maze};
use crate::mesh::Mesh;
use crate::mutate::some_mixed_block;
use crate::reaction::Phase;
use crate::row::header_of;
use crate::rules::Rules;
use crate::text::write_statement;
use crate::values::signal_bits;

struct Counts {
    fault: Fault,
    blocks: usize,
    mazes: usize,
    rooms: usize,
    /// Outputs that win, lose and draw.
    ends: [u32; 3],
    failures: Vec<String>,
}

impl Counts {
    fn new(fault: Fault) -> Counts {
        Counts { fault, blocks: 0, mazes: 0, rooms: 0, ends: [0; 3], failures: Vec::new() }
    }

    /// The maze of a block of the form with these inputs, solved by both ways, beside the rounds of the first instant.
    fn maze(&mut self, block: &Block, inputs: u64) {
        let reaction = Rules { fault: Fault::None }.react(block, Phase::Fresh, inputs);
        let (given, outputs) = (signal_bits(0, block.header.inputs), signal_bits(block.header.inputs, block.header.outputs));
        let undecided = outputs & !reaction.present & !reaction.absent;
        let wanted = [inputs | reaction.present, given & !inputs | reaction.absent, undecided];
        let maze = Maze::new(block, inputs, self.fault);
        let ends = maze.solve();
        self.mazes += 1;
        self.rooms += maze.rooms.len();
        let got = maze.ends(&ends);
        got.iter().zip(&mut self.ends).for_each(|(set, count)| *count += (set & outputs).count_ones());
        // A draw is there exactly where the instant is refused.
        let refused = reaction.code.is_none() == (undecided != 0);
        if got != wanted || ends != maze.solve_by_moves() || !refused {
            let statement = write_statement(&block.root.tokens());
            self.failures.push(format!("{statement} with {inputs:b}: {got:x?}, not {wanted:x?}"));
        }
    }

    /// A fault need not be told twice.
    fn told_once(&self) -> bool {
        self.fault != Fault::None && !self.failures.is_empty()
    }

    /// Every block of the form up to this many statements, with every input set.
    fn small(&mut self, most: usize) {
        const FORMS: [Form; 4] = [Form::Nothing, Form::Emit, Form::Present, Form::Parallel];
        let mut all = All::new(Alphabet { forms: &FORMS, inputs: 1, outputs: 2, locals: 0, lean: false });
        for size in 1..=most {
            all.each(size, &mut |tokens| {
                if let Ok(block) = decode(&encode_tokens(header_of(1, 2, tokens), tokens), Fault::None) {
                    if of_form(&block.root, Fault::None) && !self.told_once() {
                        self.blocks += 1;
                        (0..2).for_each(|inputs| self.maze(&block, inputs));
                    }
                }
            });
        }
    }

    fn random(&mut self, count: usize, chance: &mut Chance) {
        for n in 0..count {
            let block = Mesh::some(chance, if n % 8 == 0 { 20 } else { 5 }).block(chance);
            if self.told_once() {
                return;
            }
            self.blocks += 1;
            (0..2).for_each(|_| self.maze(&block, some_inputs(&block, chance)));
        }
    }
}

/// All small blocks of the form up to a size and so many random ones; false if a room ends otherwise than its signal does.
pub fn print_maze(most: usize, count: usize, seed: u64) -> bool {
    let mut counts = Counts::new(Fault::None);
    counts.small(most);
    counts.random(count, &mut Chance::new(seed));
    counts.failures.sort_by_key(|failure| failure.len());
    counts.failures.iter().take(20).for_each(|failure| println!("failed maze: {failure}"));
    // The form and the order of the tests are for the cases to tell.
    let faults: Vec<Fault> = MAZES.iter().copied().filter(|fault| !CALLED.contains(fault)).collect();
    let missed = faults.iter().filter(|&&fault| {
        let mut wrong = Counts::new(fault);
        wrong.small(3);
        wrong.random(count, &mut Chance::new(seed));
        wrong.failures.is_empty()
    });
    let missed = missed.inspect(|fault| println!("{fault:?}: not told apart by {count} blocks ({})", fault.says())).count();
    let Counts { blocks, mazes, rooms, ends: [wins, loses, draws], failures, .. } = counts;
    println!("{mazes} mazes of {blocks} blocks, {rooms} rooms; of the outputs {wins} win, {loses} lose and {draws} draw; {} failed", failures.len());
    println!("{} wrong mazes told apart, {missed} not", faults.len() - missed);
    failures.is_empty() && missed == 0 && wins > 0 && loses > 0 && draws > 0
}

const CALLED: [Fault; 4] = [Fault::FormBeforeInput, Fault::TwoNothings, Fault::TwoParts, Fault::NothingAnywhere];

/// A random call: mostly a block of the form, some with one statement changed, some of any form.
pub fn some_maze_case(chance: &mut Chance) -> Case {
    let (mut bytes, block) = match chance.weighed(&[60, 20, 15, 5]) {
        0 => of_mesh(Mesh::some(chance, 8).block(chance)),
        1 => {
            let block = Mesh::some(chance, 5).block(chance);
            let mut tokens = block.root.tokens();
            let at = chance.below(tokens.len());
            tokens[at].0 = match tokens[at].0 {
                Form::Emit => chance.pick(&[Form::Nothing, Form::Pause]),
                Form::Nothing => chance.pick(&[Form::Pause, Form::Nothing]),
                Form::Parallel => Form::Sequence,
                form => form,
            };
            if tokens[at].0 == Form::Nothing {
                tokens[at].1 = 0;
            }
            let bytes = encode_tokens(block.header, &tokens);
            let read = decode(&bytes, Fault::None).unwrap_or(block);
            (bytes, read)
        }
        2 => some_mixed_block(chance, 1, 16),
        _ => some_edge_block(chance),
    };
    let block = with_version(&mut bytes, block, chance);
    let mut inputs = some_inputs(&block, chance);
    match chance.below(24) {
        0 => inputs |= 1u64.checked_shl(block.header.inputs as u32).unwrap_or(0),
        1 => inputs |= 1 << 63,
        _ => {}
    }
    if !bytes.is_empty() && chance.percent(6) {
        spoil(&mut bytes, chance);
    }
    Case { block: bytes, call: Call::Maze { inputs } }
}

fn of_mesh(block: Block) -> (Vec<u8>, Block) {
    (encode_tokens(block.header, &block.root.tokens()), block)
}

/// Inputs, outputs, statement, input set, and the answer: number, place, and who wins, loses and draws.
const WORKED: [(u16, u16, &str, u64, &str); 27] = [
    (0, 1, "(emit 0)", 0, "0 0 1 0 0"),
    (0, 2, "(emit 1)", 0, "0 0 2 1 0"),
    (2, 1, "(emit 2)", 1, "0 0 5 2 0"),
    (0, 1, "(present 0 (emit 0) nothing)", 0, "0 0 0 0 1"),
    (0, 1, "(present 0 nothing (emit 0))", 0, "0 0 0 0 1"),
    (1, 1, "(present 0 (emit 1) nothing)", 1, "0 0 3 0 0"),
    (1, 1, "(present 0 (emit 1) nothing)", 0, "0 0 0 3 0"),
    (1, 1, "(present 0 nothing (emit 1))", 0, "0 0 2 1 0"),
    (1, 1, "(present 0 nothing (emit 1))", 1, "0 0 1 2 0"),
    (0, 2, "(present 0 (emit 1) nothing)", 0, "0 0 0 3 0"),
    (0, 2, "(present 0 nothing (emit 1))", 0, "0 0 2 1 0"),
    (0, 2, "(par (present 0 nothing (emit 1)) (present 1 nothing (emit 0)))", 0, "0 0 0 0 3"),
    (0, 2, "(par (emit 0) (present 0 nothing (emit 1)))", 0, "0 0 1 2 0"),
    (0, 2, "(par (present 1 (emit 1) nothing) (emit 0))", 0, "0 0 1 0 2"),
    (0, 2, "(par (present 1 (emit 1) nothing) (par (emit 0) (emit 1)))", 0, "0 0 3 0 0"),
    (1, 2, "(present 0 (present 1 nothing (emit 2)) nothing)", 1, "0 0 5 2 0"),
    (0, 0, "nothing", 0, "1a 0 0 0 0"),
    (0, 1, "(par nothing (emit 0))", 0, "1a 0 0 0 0"),
    (0, 1, "(present 0 nothing nothing)", 0, "1a 0 0 0 0"),
    (0, 1, "(present 0 (emit 0) (emit 0))", 0, "1a 0 0 0 0"),
    (0, 1, "(present 0 (present 0 nothing nothing) nothing)", 0, "1a 0 0 0 0"),
    (0, 1, "(seq (emit 0) (emit 0))", 0, "1a 0 0 0 0"),
    (0, 1, "(par pause (emit 0))", 0, "1a 0 0 0 0"),
    (0, 1, "(trap (emit 0))", 0, "1a 0 0 0 0"),
    (0, 1, "(local 1 (emit 1))", 0, "1a 0 0 0 0"),
    (0, 0, "nothing", 1, "b 0 0 0 0"),
    (1, 1, "(emit 1)", 2, "b 0 0 0 0"),
];

/// The calls of a maze at their boundaries.
pub fn maze_edges() -> Vec<EdgeCall> {
    let worked = WORKED.iter().map(|&(inputs, outputs, text, given, wanted)| {
        (Case { block: block_of(inputs, outputs, text), call: Call::Maze { inputs: given } }, wanted)
    });
    let bad = bad_blocks().into_iter().map(|(block, wanted)| (Case { block, call: Call::Maze { inputs: 1 } }, wanted));
    worked.chain(bad).collect()
}
