//! Calls that ask why: random ones, and the worked answers with QUESTION at its boundaries.

use crate::block::{Block, Form, Token};
use crate::cases::{some_state, spoil, with_version, Call, Case};
use crate::chance::Chance;
use crate::edge_calls::{bad_blocks, state_of, EdgeCall};
use crate::edges::{block_of, set};
use crate::heard_cases::{maybe_bad_heard, some_input_block};
use crate::reaction::Phase;
use crate::reason::Asked;
use crate::values::Heard;

/// A random question about a random instant.
pub fn some_why_case(chance: &mut Chance) -> Case {
    let (mut bytes, block) = some_input_block(chance);
    let block = with_version(&mut bytes, block, chance);
    let (state, heard) = (some_state(&block, chance), maybe_bad_heard(block.header.inputs, chance));
    let asked = some_question(&block, chance);
    if !bytes.is_empty() && chance.percent(6) {
        spoil(&mut bytes, chance);
    }
    Case { block: bytes, call: Call::Reason { state, heard, asked } }
}

/// Mostly about an output or an emit that is there.
fn some_question(block: &Block, chance: &mut Chance) -> Asked {
    let tokens = block.root.tokens();
    let emits: Vec<u64> = (0..tokens.len()).filter(|&n| is_emit(&tokens[n])).map(|n| n as u64).collect();
    let (inputs, outputs) = (block.header.inputs as usize, block.header.outputs as usize);
    match chance.weighed(&[5, 4, 1, 5, 2]) {
        0 => Asked::Refused,
        1 if outputs > 0 => Asked::Present((inputs + chance.below(outputs)) as u64),
        0..=2 => Asked::Present(chance.below(inputs + outputs + block.header.locals as usize + 2) as u64),
        3 if !emits.is_empty() => Asked::NotExecuted(chance.pick(&emits)),
        _ => Asked::NotExecuted(chance.below(tokens.len() + 2) as u64),
    }
}

fn is_emit(token: &Token) -> bool {
    token.0 == Form::Emit
}

const TWICE: &str = "(seq (emit 0) (seq (emit 0) pause))";
const RESTARTED: &str = "(loop (local 2 (seq (present 2 (emit 0) (emit 1)) (seq pause (emit 2)))))";
const HELD: &str = "(suspend 0 (seq pause (emit 1)))";
const FRESH: Phase = Phase::Fresh;
const FIRST: Phase = Phase::Running(1);
const ENDED: Phase = Phase::Finished;
const REFUSED: Asked = Asked::Refused;

/// A question with its answer in hex: inputs, outputs, statement, state, present, absent.
type Question = (u16, u16, &'static str, Phase, u64, u64, Asked, &'static str);

/// The worked answers: which tests are undecided, which emits were executed, and which were not.
const WORKED: [Question; 45] = [
    (0, 1, "(present 0 (emit 0) nothing)", FRESH, 0, 0, REFUSED, "0 0 0 0 0"),
    (0, 1, "(present 0 (emit 0) nothing)", FRESH, 0, 0, Asked::Present(0), "10 0 0 0 0"),
    (0, 1, "(present 0 (emit 0) nothing)", FRESH, 0, 0, Asked::NotExecuted(1), "10 0 0 0 0"),
    (0, 1, "(seq (present 0 nothing nothing) (emit 0))", FRESH, 0, 0, REFUSED, "0 0 0 0 1"),
    (0, 0, "(local 0 (present 0 (emit 0) nothing))", FRESH, 0, 0, REFUSED, "0 0 0 0 1"),
    (0, 1, "(suspend 0 (seq pause (emit 0)))", FRESH, 0, 0, REFUSED, "10 0 0 0 0"),
    (0, 1, "(suspend 0 (seq pause (emit 0)))", FIRST, 0, 0, REFUSED, "0 0 0 0 0"),
    (0, 1, "(loop (seq (present 0 (emit 0) nothing) pause))", FIRST, 0, 0, REFUSED, "0 0 0 0 2"),
    (0, 1, TWICE, FRESH, 0, 0, Asked::Present(0), "0 0 0 0 1"),
    (0, 1, TWICE, FRESH, 0, 0, Asked::NotExecuted(1), "10 0 0 0 0"),
    (0, 1, TWICE, FRESH, 0, 0, Asked::NotExecuted(3), "10 0 0 0 0"),
    (0, 1, TWICE, FIRST, 0, 0, Asked::NotExecuted(1), "0 0 0 0 1"),
    (0, 1, TWICE, FIRST, 0, 0, Asked::NotExecuted(3), "0 0 0 0 3"),
    (0, 1, TWICE, FIRST, 0, 0, Asked::NotExecuted(4), "10 0 0 0 0"),
    (0, 1, TWICE, FIRST, 0, 0, Asked::NotExecuted(5), "10 0 0 0 0"),
    (0, 1, TWICE, FIRST, 0, 0, Asked::Present(0), "10 0 0 0 0"),
    (0, 1, TWICE, ENDED, 0, 0, Asked::NotExecuted(3), "0 0 0 0 0"),
    (0, 1, TWICE, ENDED, 0, 0, Asked::NotExecuted(1), "0 0 0 0 0"),
    (0, 1, TWICE, ENDED, 0, 0, Asked::NotExecuted(2), "10 0 0 0 0"),
    (0, 1, TWICE, ENDED, 0, 0, Asked::Present(0), "10 0 0 0 0"),
    (0, 1, TWICE, ENDED, 0, 0, REFUSED, "10 0 0 0 0"),
    (1, 1, HELD, FIRST, 1, 0, Asked::NotExecuted(3), "0 0 0 0 1"),
    (1, 1, HELD, FIRST, 0, 1, Asked::NotExecuted(3), "10 0 0 0 0"),
    (1, 1, HELD, FIRST, 0, 1, Asked::Present(1), "0 0 0 0 3"),
    (1, 1, HELD, FIRST, 0, 0, REFUSED, "0 0 0 0 0"),
    (1, 1, HELD, FIRST, 0, 0, Asked::NotExecuted(3), "10 0 0 0 0"),
    (1, 1, HELD, FRESH, 0, 0, Asked::NotExecuted(3), "0 0 0 0 3"),
    (0, 1, "(par (emit 0) pause)", FIRST, 0, 0, Asked::NotExecuted(1), "0 0 0 0 1"),
    (0, 1, "(trap (seq (exit 0) (seq nothing (emit 0))))", FRESH, 0, 0, Asked::NotExecuted(5), "0 0 0 0 3"),
    (0, 2, RESTARTED, FIRST, 0, 0, Asked::NotExecuted(4), "0 0 0 0 4"),
    (0, 2, RESTARTED, FIRST, 0, 0, Asked::NotExecuted(8), "10 0 0 0 0"),
    (0, 2, RESTARTED, FIRST, 0, 0, Asked::Present(1), "0 0 0 0 5"),
    (0, 2, RESTARTED, FIRST, 0, 0, Asked::Present(0), "10 0 0 0 0"),
    (0, 2, RESTARTED, FIRST, 0, 0, Asked::Present(2), "10 0 0 0 0"),
    (0, 2, RESTARTED, FIRST, 0, 0, REFUSED, "10 0 0 0 0"),
    (1, 1, "(present 0 (emit 1) (emit 1))", FRESH, 0, 0, REFUSED, "0 0 0 0 0"),
    (1, 1, "(present 0 (emit 1) (emit 1))", FRESH, 0, 1, Asked::Present(1), "0 0 0 0 2"),
    (1, 1, "(present 0 (emit 1) (emit 1))", FRESH, 1, 0, Asked::Present(0), "10 0 0 0 0"),
    (1, 1, "(present 0 (emit 1) (emit 1))", FRESH, 1, 0, Asked::Present(2), "10 0 0 0 0"),
    (1, 1, "(present 0 (emit 1) (emit 1))", FRESH, 1, 0, Asked::Present(64), "10 0 0 0 0"),
    (1, 1, "(present 0 (emit 1) (emit 1))", FRESH, 1, 0, Asked::Present(65537), "10 0 0 0 0"),
    (1, 1, "(present 0 (emit 1) (emit 1))", FRESH, 1, 0, Asked::Present(u64::MAX), "10 0 0 0 0"),
    (1, 1, "(present 0 (emit 1) (emit 1))", FRESH, 1, 0, Asked::NotExecuted(65538), "10 0 0 0 0"),
    (1, 1, "(present 0 (emit 1) (emit 1))", FRESH, 1, 0, Asked::NotExecuted(u64::MAX), "10 0 0 0 0"),
    (0, 1, "(par (present 0 (emit 0) nothing) (seq (present 0 pause pause) (emit 0)))", FRESH, 0, 0, REFUSED, "0 0 0 0 1"),
];

/// The worked answers, and the order of the refusals.
pub fn why_edges() -> Vec<EdgeCall> {
    let mut edges = Vec::new();
    for (inputs, outputs, text, phase, present, absent, asked, wanted) in WORKED {
        let block = block_of(inputs, outputs, text);
        let (state, heard) = (state_of(&block, phase), Heard { present, absent });
        edges.push((Case { block, call: Call::Reason { state, heard, asked } }, wanted));
    }
    let block = block_of(1, 1, "(seq (par pause pause) (seq pause (emit 1)))");
    let (fresh, clashing) = (state_of(&block, Phase::Fresh), state_of(&block, Phase::Running(6)));
    let (both, good) = (Heard { present: 1, absent: 1 }, Heard { present: 0, absent: 0 });
    for asked in [REFUSED, Asked::Present(9), Asked::NotExecuted(99)] {
        for (state, heard, wanted) in [
            (fresh[..25].to_vec(), both, "9 0 0 0 0"),
            (set(&clashing, 6, 9), both, "11 0 0 0 0"),
            (clashing.clone(), both, "a 0 1 2 0"),
            (fresh.clone(), both, "b 0 0 0 0"),
            (fresh.clone(), Heard { present: 2, absent: 0 }, "b 0 0 0 0"),
            (fresh.clone(), Heard { present: 0, absent: 2 }, "b 0 0 0 0"),
            (fresh.clone(), good, "10 0 0 0 0"),
        ] {
            edges.push((Case { block: block.clone(), call: Call::Reason { state, heard, asked } }, wanted));
        }
    }
    for (bad, wanted) in bad_blocks() {
        edges.push((Case { block: bad, call: Call::Reason { state: fresh.clone(), heard: both, asked: REFUSED } }, wanted));
    }
    edges
}
