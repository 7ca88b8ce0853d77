//! Edition 2 by its own meaning beside what it is converted to. And the calls that convert.

use std::io::{self, Read, Write};

use crate::all::{All, Alphabet};
use crate::block::{decode, decode_edition, encode_edition, encode_tokens, Block, Form, Header, Token};
use crate::cases::{some_edge_block, spoil, with_version, Call, Case};
use crate::chance::Chance;
use crate::convert::{convert, converted};
use crate::edge_calls::EdgeCall;
use crate::edges::{block_of, set, with_more};
use crate::fault::{Fault, DIRECT};
use crate::generate::{some_block, some_inputs, Wish};
use crate::mutate::some_mixed_block;
use crate::reaction::Phase;
use crate::row::header_of;
use crate::rules::Rules;
use crate::text::{read_statement, write_statement};

struct Counts {
    fault: Fault,
    blocks: usize,
    instants: usize,
    refused: usize,
    /// Runs that came to their end.
    finished: usize,
    failures: Vec<String>,
}

impl Counts {
    fn new(fault: Fault) -> Counts {
        Counts { fault, blocks: 0, instants: 0, refused: 0, finished: 0, failures: Vec::new() }
    }

    fn told_once(&self) -> bool {
        self.fault != Fault::None && !self.failures.is_empty()
    }

    /// Runs from fresh by the direct meaning and by the conversion.
    fn run(&mut self, block: &Block, runs: usize, chance: &mut Chance) {
        let other = match decode(&encode_tokens(block.header, &converted(&block.root, Fault::None)), Fault::None) {
            Ok(other) if !self.told_once() => other,
            _ => return,
        };
        self.blocks += 1;
        let (direct, rules) = (Rules { fault: self.fault }, Rules { fault: Fault::None });
        for _ in 0..runs {
            let (mut one, mut two) = (Phase::Fresh, Phase::Fresh);
            for _ in 0..6 {
                let inputs = some_inputs(block, chance);
                let (told, again) = (direct.react(block, one, inputs), rules.react(&other, two, inputs));
                let same = (told.code, told.present, told.absent, told.rounds) == (again.code, again.present, again.absent, again.rounds);
                if !same {
                    self.failures.push(format!("{} with {inputs:b}: {told:?} and {again:?}", write_statement(&block.root.tokens())));
                    return;
                }
                self.instants += 1;
                self.refused += told.code.is_none() as usize;
                one = told.next;
                two = again.next;
            }
            self.finished += (one == Phase::Finished) as usize;
        }
    }

    /// Every block up to this many statements in which one of the four stands.
    fn small(&mut self, most: usize, chance: &mut Chance) {
        const FORMS: [Form; 11] = [
            Form::Pause, Form::Emit, Form::Present, Form::Sequence, Form::Parallel, Form::Trap, Form::Exit, Form::Halt, Form::Sustain,
            Form::Await, Form::Abort,
        ];
        let mut all = All::new(Alphabet { forms: &FORMS, inputs: 0, outputs: 1, locals: 0, lean: true });
        for size in 1..=most {
            all.each(size, &mut |tokens| {
                if tokens.iter().any(|token| token.0 as u16 >= Form::Halt as u16) {
                    let block = decode_edition(&encode_edition(2, header_of(0, 1, tokens), tokens), 2, Fault::None);
                    block.into_iter().for_each(|block| self.run(&block, 1, chance));
                }
            });
        }
    }

    fn random(&mut self, count: usize, chance: &mut Chance) {
        let known = wide_of(0, 1, KNOWN);
        self.run(&known.1, 1, chance);
        for _ in 0..count {
            let block = some_wide_block(chance).1;
            self.run(&block, 3, chance);
        }
    }
}

/// Where an abort of an unknown signal can give 1 besides 0: without it the second instant would be answered.
const KNOWN: &str = "(trap (seq (trap (par (seq (abort 0 pause) (exit 1)) (seq pause (exit 0)))) (emit 0)))";

/// A block of edition 2 from text.
fn wide_of(inputs: u16, outputs: u16, text: &str) -> (Vec<u8>, Block) {
    let tokens = read_statement(text);
    let bytes = encode_edition(2, header_of(inputs, outputs, &tokens), &tokens);
    let block = decode_edition(&bytes, 2, Fault::None).expect("a good block of edition 2");
    (bytes, block)
}

/// A block of edition 1 in which pauses became halts, sustains and awaits, and suspends aborts.
fn some_wide_block(chance: &mut Chance) -> (Vec<u8>, Block) {
    loop {
        let block = if chance.percent(40) {
            some_mixed_block(chance, 2, 20).1
        } else {
            let wish = Wish { weights: [4, 7, 6, 1, 5, 3, 2], ..Wish::some(chance, 4, 24) };
            some_block(chance, wish).1
        };
        let tokens = everyday(&block, chance);
        let bytes = encode_edition(2, block.header, &tokens);
        if let Ok(wide) = decode_edition(&bytes, 2, Fault::None) {
            return (bytes, wide);
        }
    }
}

fn everyday(block: &Block, chance: &mut Chance) -> Vec<Token> {
    let Header { inputs, outputs, .. } = block.header;
    let mut change = |(form, operand): Token| match form {
        Form::Pause if chance.percent(60) => {
            let some = chance.below(3);
            match some {
                1 if outputs > 0 => (Form::Sustain, inputs + chance.below(outputs as usize) as u16),
                2 if inputs + outputs > 0 => (Form::Await, chance.below((inputs + outputs) as usize) as u16),
                _ => (Form::Halt, 0),
            }
        }
        Form::Suspend if chance.percent(75) => (Form::Abort, operand),
        _ => (form, operand),
    };
    block.root.tokens().into_iter().map(|token| change(token)).collect()
}

/// The conversion of the block on standard input; false if it is refused.
pub fn print_converted() -> bool {
    let (mut block, mut bytes) = (Vec::new(), [0; 3086]);
    let (answer, size) = match io::stdin().read_to_end(&mut block) {
        Ok(_) => convert(&block, &mut bytes, Fault::None),
        Err(_) => return false,
    };
    if answer.number != 0 {
        eprintln!("refused with {} at {}", answer.number, answer.place);
        return false;
    }
    io::stdout().write_all(&bytes[..size]).is_ok()
}

/// All small blocks of edition 2 and so many random ones; false if a run differs.
pub fn print_convert(most: usize, count: usize, seed: u64) -> bool {
    let mut counts = Counts::new(Fault::None);
    counts.small(most, &mut Chance::new(seed));
    counts.random(count, &mut Chance::new(seed));
    counts.failures.sort_by_key(|failure| failure.len());
    counts.failures.iter().take(20).for_each(|failure| println!("failed convert: {failure}"));
    let missed = DIRECT.iter().filter(|&&fault| {
        let mut wrong = Counts::new(fault);
        wrong.small(4, &mut Chance::new(seed));
        wrong.random(count, &mut Chance::new(seed));
        wrong.failures.is_empty()
    });
    let missed = missed.inspect(|fault| println!("{fault:?}: not told apart by {count} blocks ({})", fault.says())).count();
    let Counts { blocks, instants, refused, finished, failures, .. } = counts;
    println!("{instants} instants of {blocks} blocks of edition 2 and of what they are converted to, {refused} of them 13, {finished} runs finished; {} failed", failures.len());
    println!("{} wrong meanings told apart, {missed} not", DIRECT.len() - missed);
    failures.is_empty() && missed == 0 && refused > 0 && finished > 0
}

/// A random call.
pub fn some_convert_case(chance: &mut Chance) -> Case {
    let (mut bytes, block) = match chance.weighed(&[75, 10, 10, 5]) {
        0 => some_wide_block(chance),
        1 => {
            // Far from the limits and past them.
            let wish = Wish { weights: [2, 4, 6, 1, 6, 1, 1], pauses: 9, ..Wish::some(chance, 60, 300) };
            let block = some_block(chance, wish).1;
            let tokens = everyday(&block, chance);
            let bytes = encode_edition(2, block.header, &tokens);
            let read = decode_edition(&bytes, 2, Fault::None).unwrap_or(block);
            (bytes, read)
        }
        2 => some_mixed_block(chance, 1, 12),
        _ => some_edge_block(chance),
    };
    let block = with_version(&mut bytes, block, chance);
    let size = encode_tokens(block.header, &converted(&block.root, Fault::None)).len();
    if !bytes.is_empty() && chance.percent(8) {
        spoil(&mut bytes, chance);
    }
    let room = chance.pick(&[3086, 3086, 4000, size, size, size + 1, size - 1, 0]);
    Case { block: bytes, call: Call::Convert { room } }
}

/// Inputs, outputs, the statement, and the one of edition 1 that it is converted to.
const WORKED: [(u16, u16, &str, &str); 11] = [
    (0, 1, "(halt)", "(loop pause)"),
    (0, 1, "(sustain 0)", "(loop (seq (emit 0) pause))"),
    (0, 1, "(await 0)", "(trap (loop (seq pause (present 0 (exit 0) nothing))))"),
    (0, 1, "(abort 0 pause)", "(trap (par (seq (suspend 0 pause) (exit 0)) (loop (seq pause (present 0 (exit 0) nothing)))))"),
    (1, 0, "(abort 0 (await 0))",
        "(trap (par (seq (suspend 0 (trap (loop (seq pause (present 0 (exit 0) nothing))))) (exit 0)) (loop (seq pause (present 0 (exit 0) nothing)))))"),
    (0, 1, "(trap (abort 0 (exit 0)))",
        "(trap (trap (par (seq (suspend 0 (exit 1)) (exit 0)) (loop (seq pause (present 0 (exit 0) nothing))))))"),
    (0, 1, "(abort 0 (trap (exit 0)))",
        "(trap (par (seq (suspend 0 (trap (exit 0))) (exit 0)) (loop (seq pause (present 0 (exit 0) nothing)))))"),
    (0, 1, "(trap (abort 0 (trap (exit 1))))",
        "(trap (trap (par (seq (suspend 0 (trap (exit 2))) (exit 0)) (loop (seq pause (present 0 (exit 0) nothing))))))"),
    (0, 1, "(trap (abort 0 (abort 0 (exit 0))))",
        "(trap (trap (par (seq (suspend 0 (trap (par (seq (suspend 0 (exit 2)) (exit 0)) (loop (seq pause (present 0 (exit 0) nothing)))))) (exit 0)) (loop (seq pause (present 0 (exit 0) nothing))))))"),
    (0, 1, "(local 1 (par (sustain 1) (await 1)))",
        "(local 1 (par (loop (seq (emit 1) pause)) (trap (loop (seq pause (present 1 (exit 0) nothing))))))"),
    (0, 1, "nothing", "nothing"),
];

/// So many of a leaf beside each other, in a tree.
fn beside(count: usize, leaf: &str) -> String {
    match count {
        1 => leaf.to_string(),
        _ => format!("(par {} {})", beside(count / 2, leaf), beside(count - count / 2, leaf)),
    }
}

fn wide(inputs: u16, outputs: u16, text: &str) -> Vec<u8> {
    let tokens = read_statement(text);
    encode_edition(2, header_of(inputs, outputs, &tokens), &tokens)
}

/// The calls that convert, at their boundaries.
pub fn convert_edges() -> Vec<EdgeCall> {
    let lent = |block: Vec<u8>, room: usize| Case { block, call: Call::Convert { room } };
    let told = |text: String| -> &'static str { Box::leak(text.into_boxed_str()) };
    let hex = |bytes: &[u8]| bytes.iter().map(|byte| format!("{byte:02x}")).collect::<String>();
    let mut edges: Vec<EdgeCall> = WORKED.iter().map(|&(inputs, outputs, text, means)| {
        let result = block_of(inputs, outputs, means);
        (lent(wide(inputs, outputs, text), 3086), told(format!("0 0 {:x} {}+{:x}", result.len(), hex(&result), 3086 - result.len())))
    }).collect();
    let nested = |count: usize, body: &str| format!("{}{body}{}", "(abort 0 ".repeat(count), ")".repeat(count));
    let trapped = |count: usize| format!("{}(abort 0 pause){}", "(trap ".repeat(count), ")".repeat(count));
    for (text, wanted) in [
        (beside(128, "(halt)"), "0 0"),
        (beside(129, "(halt)"), "4 0 0 -+c0e"),
        // n sustains have 5n - 1 statements, n awaits 8n - 1.
        (beside(102, "(sustain 0)"), "0 0"),
        (beside(103, "(sustain 0)"), "4 0 0 -+c0e"),
        (beside(64, "(await 0)"), "0 0"),
        (beside(65, "(await 0)"), "4 0 0 -+c0e"),
        // Four on the path for each abort, and one trap.
        (nested(15, "pause"), "0 0"),
        (nested(16, "pause"), "4 0 0 -+c0e"),
        (trapped(15), "0 0"),
        (trapped(16), "4 0 0 -+c0e"),
        (nested(64, "pause"), "4 18e 0 -+c0e"),
    ] {
        edges.push((lent(wide(0, 1, &text), 3086), wanted));
    }
    let halt = wide(0, 1, "(halt)");
    for (room, wanted) in [(22, "0 0 16"), (23, "0 0 16"), (21, "c 0 0 -+15"), (0, "c 0 0 -+0")] {
        edges.push((lent(halt.clone(), room), wanted));
    }
    edges.push((lent(wide(0, 1, &beside(129, "(halt)")), 0), "4 0 0 -+0"));
    for (block, wanted) in [
        (block_of(0, 1, "nothing"), "3 0 0 -+c0e"),
        (set(&halt, 4, 3), "3 0"),
        (halt[..17].to_vec(), "1 e"),
        (set(&halt, 16, 31), "2 e"),
        (set(&halt, 16, 36), "2 e"),
        (set(&halt, 14, 6), "1 e"),
        (with_more(&set(&halt, 14, 6), &[0, 0]), "2 e"),
        (set(&halt, 8, 64), "4 0"),
        (wide(1, 0, "(sustain 0)"), "5 e"),
        (wide(1, 0, "(await 0)"), "0 0"),
        (wide(0, 0, "(await 0)"), "5 e"),
        (wide(0, 0, "(abort 0 pause)"), "5 e"),
        (wide(0, 1, "(abort 0 (exit 0))"), "6 14"),
        (with_more(&halt, &[0]), "7 12"),
        (wide(0, 1, "(loop (halt))"), "0 0"),
        (wide(0, 1, "(loop (await 0))"), "0 0"),
        (wide(0, 1, "(loop (abort 0 pause))"), "0 0"),
        (wide(0, 1, "(loop (abort 0 nothing))"), "8 e"),
    ] {
        edges.push((lent(block.clone(), 3086), wanted));
        edges.push((lent(block, 0), if wanted == "0 0" { "c 0" } else { wanted.split(" 0 -").next().unwrap_or(wanted) }));
    }
    edges
}
