//! A block and its doubled one under the same runs. And the calls that double.

use crate::all::{All, Alphabet};
use crate::block::{decode, encode_tokens, Block, Form, Statement};
use crate::cases::{some_edge_block, spoil, with_version, Call, Case};
use crate::chance::Chance;
use crate::double::doubled;
use crate::edge_calls::{bad_blocks, EdgeCall};
use crate::edges::block_of;
use crate::fault::Fault;
use crate::generate::{some_block, some_inputs, Wish};
use crate::mutate::some_mixed_block;
use crate::reaction::Phase;
use crate::reason::reached;
use crate::row::header_of;
use crate::rules::Rules;
use crate::text::write_statement;
use crate::values::Heard;

#[derive(Default)]
struct Counts {
    blocks: usize,
    instants: usize,
    refused: usize,
    /// Instants in which a local of the block as it is was entered twice.
    twice: usize,
    failures: Vec<String>,
}

impl Counts {
    /// One run from fresh on both; each instant has to come to the same, and no local of the doubled block is entered twice.
    fn run(&mut self, block: &Block, runs: usize, chance: &mut Chance) {
        let double = match doubled(block) {
            Some(double) => double,
            None => return,
        };
        self.blocks += 1;
        let rules = Rules { fault: Fault::None };
        for _ in 0..runs {
            let (mut one, mut two) = (Phase::Fresh, Phase::Fresh);
            for _ in 0..6 {
                let inputs = some_inputs(block, chance);
                let (told, again) = (rules.react(block, one, inputs), rules.react(&double, two, inputs));
                let heard = Heard::all(inputs, block.header.inputs);
                self.twice += entered_twice(block, one, heard) as usize;
                let same = (told.code, told.present, told.absent, told.rounds) == (again.code, again.present, again.absent, again.rounds);
                if !same || entered_twice(&double, two, heard) {
                    self.failures.push(format!("{} with {inputs:b}: {told:?} and {again:?}", write_statement(&block.root.tokens())));
                }
                self.instants += 1;
                self.refused += told.code.is_none() as usize;
                one = told.next;
                two = again.next;
            }
        }
    }

    /// Every block with a loop up to this many statements.
    fn small(&mut self, most: usize, chance: &mut Chance) {
        const FORMS: [Form; 9] = [
            Form::Nothing, Form::Pause, Form::Emit, Form::Present, Form::Sequence, Form::Loop, Form::Parallel, Form::Exit, Form::Trap,
        ];
        let mut all = All::new(Alphabet { forms: &FORMS, inputs: 0, outputs: 1, locals: 0, lean: true });
        for size in 2..=most {
            all.each(size, &mut |tokens| {
                if tokens.iter().any(|token| token.0 == Form::Loop) {
                    let block = decode(&encode_tokens(header_of(0, 1, tokens), tokens), Fault::None);
                    block.into_iter().for_each(|block| self.run(&block, 1, chance));
                }
            });
        }
    }
}

/// Whether a local's body was started twice, or resumed and started, in this instant.
fn entered_twice(block: &Block, phase: Phase, heard: Heard) -> bool {
    let twice = reached(block, phase, heard, Fault::None).twice;
    twice.iter().any(|&n| block.root.find(n).map_or(false, |p| p.form == Form::Local))
}

/// All small blocks with loops and so many random ones; false if a run differs.
pub fn print_copies(most: usize, count: usize, seed: u64) -> bool {
    let mut counts = Counts::default();
    let mut chance = Chance::new(seed);
    counts.small(most, &mut chance);
    for _ in 0..count {
        let block = some_looping_block(&mut chance).1;
        counts.run(&block, 3, &mut chance);
    }
    counts.failures.sort_by_key(|failure| failure.len());
    counts.failures.iter().take(20).for_each(|failure| println!("failed copies: {failure}"));
    let Counts { blocks, instants, refused, twice, failures } = counts;
    println!("{instants} instants of {blocks} blocks and their doubled ones, {refused} of them 13; {} failed", failures.len());
    println!("a local was entered twice in {twice} instants of the blocks as they were, in none of the doubled ones but for the failures");
    failures.is_empty() && refused > 0 && twice > 0
}

/// A block with loops and locals in them.
fn some_looping_block(chance: &mut Chance) -> (Vec<u8>, Block) {
    loop {
        let (bytes, block) = if chance.percent(30) {
            some_mixed_block(chance, 3, 24)
        } else {
            let wish = Wish { weights: [4, 1, 7, 7, 3, 1, 6], ..Wish::some(chance, 6, 40) };
            some_block(chance, wish)
        };
        if block.root.tokens().iter().any(|token| token.0 == Form::Loop) {
            return (bytes, block);
        }
    }
}

/// How deep statements of a form stand in each other.
fn deep(p: &Statement, form: Form) -> usize {
    (p.form == form) as usize + p.parts.iter().map(|part| deep(part, form)).max().unwrap_or(0)
}

/// Whether loops stand in each other so deep.
pub fn nested_loops(block: &Block) -> usize {
    deep(&block.root, Form::Loop)
}

/// A random call.
pub fn some_copies_case(chance: &mut Chance) -> Case {
    let (mut bytes, block) = match chance.weighed(&[60, 15, 15, 10]) {
        0 => some_looping_block(chance),
        1 => {
            let wish = Wish { weights: [3, 1, 6, 9, 3, 1, 4], ..Wish::some(chance, 40, 300) };
            some_block(chance, wish)
        }
        2 => some_mixed_block(chance, 1, 20),
        _ => some_edge_block(chance),
    };
    let block = with_version(&mut bytes, block, chance);
    let size = doubled(&block).map_or(40, |double| encode_tokens(double.header, &double.root.tokens()).len());
    if !bytes.is_empty() && chance.percent(6) {
        spoil(&mut bytes, chance);
    }
    let room = chance.pick(&[3086, 3086, 4000, size, size, size + 1, size - 1, 0]);
    Case { block: bytes, call: Call::Copies { room } }
}

/// So many statements, each in a sequence before the next, around a last one.
fn before(count: usize, leaf: &str, last: &str) -> String {
    format!("{}{last}{}", format!("(seq {leaf} ").repeat(count), ")".repeat(count))
}

/// A balanced tree of so many leaves, for paths that stay short.
fn beside(count: usize, leaf: &str) -> String {
    match count {
        1 => leaf.to_string(),
        _ => format!("(par {} {})", beside(count / 2, leaf), beside(count - count / 2, leaf)),
    }
}

/// Inputs, outputs, the statement, room, and the answer: number, place, size, and the lent bytes.
const WORKED: [(u16, u16, &str, usize, &str); 6] = [
    // No loop: its own bytes.
    (0, 0, "nothing", 18, "0 0 12 0e0001000100010000000000000004001000+0"),
    (0, 0, "(loop pause)", 30, "0 0 1e 0e0001000100010000000000000004001600040015000400110004001100+0"),
    (0, 0, "(loop pause)", 29, "c 0 0 -+1d"),
    (0, 0, "(loop pause)", 0, "c 0 0 -+0"),
    (0, 0, "(loop (loop pause))", 100, "0 0 36 0e00010001000100000000000000040016000400150004001600040015000400110004001100040016000400150004001100040011\
00+2e"),
    // A local in each of two nested loops: 1 and 2 become 1, 2, 3 and 4, 5, 6.
    (0, 1, "(loop (local 1 (loop (local 2 (seq (emit 2) (seq pause (emit 1)))))))", 3086, "0 0"),
];

/// The limits at their boundaries, doubled: statements, pauses, signals, and the path.
fn limited() -> Vec<(Vec<u8>, &'static str)> {
    let looped = |body: &str| format!("(loop {body})");
    let deep = |count: usize| format!("{}(loop pause){}", "(trap ".repeat(count.min(15)), ")".repeat(count.min(15)));
    let path = |around: usize| {
        let body = format!("(loop {})", before(around, "pause", "pause"));
        block_of(0, 0, &body)
    };
    let locals = |count: usize| {
        let one = |n: usize| format!("(local {n} pause)");
        let mut body = one(count - 1);
        for n in (0..count - 1).rev() {
            body = format!("(par {} {body})", one(n));
        }
        block_of(0, 0, &looped(&body))
    };
    let inputs = |count: u16| block_of(count, 0, &looped(&format!("(local {count} pause)")));
    let rings = |count: usize| block_of(0, 0, &format!("{}pause{}", "(loop ".repeat(count), ")".repeat(count)));
    vec![
        // 2 + 2 (2n - 1) statements: n pauses in a tree have 2n - 1.
        (block_of(0, 0, &looped(&beside(64, "pause"))), "0 0"),
        (block_of(0, 0, &looped(&beside(65, "pause"))), "4 0 0 -+c0e"),
        // A sequence with a nothing beside: 1 + 2 + 2 m + .. = 512 and 514.
        (block_of(0, 0, &looped(&format!("(par pause {})", beside(127, "nothing")))), "0 0"),
        (block_of(0, 0, &format!("(par nothing {})", looped(&format!("(par pause {})", beside(127, "nothing"))))), "4 0 0 -+c0e"),
        // On the path: the loop, the sequence, and the body's path.
        (path(61), "0 0"),
        (path(62), "4 0 0 -+c0e"),
        (locals(32), "0 0"),
        (locals(33), "4 0 0 -+c0e"),
        (inputs(62), "0 0"),
        (inputs(63), "4 0 0 -+c0e"),
        // n nested loops have 2^n pauses and a path of 2n + 1.
        (rings(7), "0 0"),
        (rings(8), "4 0 0 -+c0e"),
        (rings(31), "4 0 0 -+c0e"),
        (rings(63), "4 0 0 -+c0e"),
        (block_of(0, 0, &deep(15)), "0 0"),
    ]
}

/// The calls that double, at their boundaries.
pub fn copies_edges() -> Vec<EdgeCall> {
    let lent = |block: Vec<u8>, room: usize| Case { block, call: Call::Copies { room } };
    let worked = WORKED.iter().map(|&(inputs, outputs, text, room, wanted)| (lent(block_of(inputs, outputs, text), room), wanted));
    let mut edges: Vec<EdgeCall> = worked.collect();
    edges.extend(limited().into_iter().map(|(block, wanted)| (lent(block, 3086), wanted)));
    // A limit is told before the room.
    edges.extend(limited().into_iter().filter(|edge| edge.1 != "0 0").map(|(block, _)| (lent(block, 0), "4 0 0 -+0")));
    for (bad, wanted) in bad_blocks() {
        edges.push((lent(bad.clone(), 3086), wanted));
        edges.push((lent(bad, 0), wanted));
    }
    edges
}
