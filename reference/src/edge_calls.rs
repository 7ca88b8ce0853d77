//! The refusals 9 to 14 and 17 at their boundaries, with answers worked out by hand.

use crate::block::decode;
use crate::cases::{Call, Case};
use crate::edges::{block_of, set, with_more};
use crate::fault::Fault;
use crate::reaction::Phase;
use crate::state::state_record;

/// A call and the first words of its answer, in hex: number, place and, for a CLASH, the pair.
pub type EdgeCall = (Case, &'static str);

/// Calls with 9 to 14 and 17 at their boundaries, and their order.
pub fn edge_calls() -> Vec<EdgeCall> {
    // Pauses 0 and 1 are compatible with each other, 2 with neither.
    let block = block_of(1, 1, "(seq (par pause pause) (seq pause (emit 1)))");
    let stuck = block_of(1, 1, "(seq pause (present 1 (emit 1) nothing))");
    let mut calls = worked_calls();
    calls.extend(refused_blocks());
    calls.extend(state_calls(&block));
    calls.extend(log_calls(&block, &stuck));
    let parts = [(0, "0 0 e"), (1, "0 0 12"), (3, "0 0 1a"), (6, "0 0 26"), (7, "e 0 0 -"), (u64::MAX, "e 0 0 -")];
    for (index, wanted) in parts {
        calls.push((Case { block: block.clone(), call: Call::Excerpt { index } }, wanted));
    }
    calls.push((Case { block: block[..20].to_vec(), call: Call::Excerpt { index: 99 } }, "1 12 0 -"));
    for (size, wanted) in [(26, "0 0"), (0, "9 0"), (22, "9 0"), (25, "9 0"), (27, "9 0"), (52, "9 0")] {
        calls.push((Case { block: block.clone(), call: Call::Fresh { state: vec![0xA5; size] } }, wanted));
    }
    for version in [0, 258, 65535] {
        calls.push((Case { block: set(&block, 6, version), call: Call::Fresh { state: vec![0xA5; 26] } }, "0 0"));
    }
    calls.push((Case { block: block[..20].to_vec(), call: Call::Fresh { state: Vec::new() } }, "1 12"));
    calls
}

/// A small block for each of 1 to 8, with its number and place.
pub fn bad_blocks() -> Vec<(Vec<u8>, &'static str)> {
    let good = block_of(0, 0, "nothing");
    vec![
        (good[..17].to_vec(), "1 e"),
        (set(&good, 16, 27), "2 e"),
        (set(&good, 4, 2), "3 0"),
        (set(&good, 8, 65), "4 0"),
        (block_of(0, 0, "(emit 0)"), "5 e"),
        (block_of(0, 0, "(exit 0)"), "6 e"),
        (with_more(&good, &[0]), "7 12"),
        (block_of(0, 0, "(loop nothing)"), "8 e"),
    ]
}

/// Every call on a block that is refused, with all else as it should be: 1 to 8 come first.
fn refused_blocks() -> Vec<EdgeCall> {
    let mut calls = Vec::new();
    for (block, wanted) in bad_blocks() {
        let state = state_of(&block_of(0, 0, "nothing"), Phase::Fresh);
        for call in [
            Call::Check,
            Call::Fresh { state: state.clone() },
            Call::Instant { state: state.clone(), inputs: 0 },
            Call::Logged { state: state.clone(), inputs: 0, log: vec![0x5A; 40], end: 3 },
            Call::Excerpt { index: 0 },
        ] {
            calls.push((Case { block: block.clone(), call }, wanted));
        }
    }
    calls
}

/// The state record of a good block.
pub fn state_of(block: &[u8], phase: Phase) -> Vec<u8> {
    state_record(&decode(block, Fault::None).expect("a good block"), phase)
}

/// The worked instants by their letters, H twice, two that the rule of a local's absence changed, a restart, and the state cases:
/// number, place, pair, present, absent, undecided, code, rounds, active.
fn worked_calls() -> Vec<EdgeCall> {
    let undecided = "d 0 0 0 0 0 1 0 1 0";
    let settled = "0 0 0 0 0 0 0 0 2 0";
    let held = "0 0 0 0 2 0 0 1 2 1";
    let restarted = "(loop (local 2 (seq (present 2 (emit 0) (emit 1)) (seq pause (emit 2)))))";
    let (fresh, first, both) = (Phase::Fresh, Phase::Running(1), Phase::Running(3));
    let cases = [
        (0, 0, "nothing", fresh, 0, "0 0 0 0 0 0 0 0 1 0"),
        (0, 1, "(present 0 (emit 0) nothing)", fresh, 0, undecided),
        (0, 1, "(present 0 (emit 0) (emit 0))", fresh, 0, undecided),
        (0, 1, "(seq (present 0 nothing nothing) (emit 0))", fresh, 0, undecided),
        (0, 1, GUARDED, fresh, 0, settled),
        (0, 2, restarted, fresh, 0, held),
        (0, 2, restarted, first, 0, held),
        (0, 1, "(seq (trap (par (exit 0) pause)) (emit 0))", fresh, 0, "0 0 0 0 1 0 0 0 2 0"),
        (1, 2, "(present 0 (present 2 (emit 1) nothing) (present 1 (emit 2) nothing))", fresh, 1, "0 0 0 0 0 0 0 0 3 0"),
        (0, 1, NESTED, fresh, 0, undecided),
        (0, 2, SLOWER, fresh, 0, "0 0 0 0 0 0 0 0 3 0"),
        (0, 2, DARKER, fresh, 0, "d 0 0 0 0 0 2 0 1 0"),
        (0, 1, RESTARTED, first, 0, "0 0 0 0 0 0 0 1 2 1"),
        (0, 0, "(seq pause pause)", both, 0, "a 0 0 1"),
        (0, 0, "(par pause pause)", both, 0, "0 0 0 0 0 0 0 0 1 0"),
    ];
    let mut calls = Vec::new();
    for (given, outputs, text, phase, inputs, wanted) in cases {
        let block = block_of(given, outputs, text);
        let state = state_of(&block, phase);
        calls.push((Case { block: block.clone(), call: Call::Instant { state: state.clone(), inputs } }, wanted));
        let call = Call::Logged { state, inputs, log: vec![0xA5; 48], end: 8 };
        calls.push((Case { block, call }, wanted));
    }
    calls
}

const GUARDED: &str = "(trap (local 1 (seq (emit 1) (present 0 (seq (present 1 (exit 0) nothing) (emit 0)) nothing))))";
const NESTED: &str = "(present 0 (local 1 (seq (local 2 (seq (emit 2) (present 2 nothing (emit 1)))) \
                      (present 1 (emit 0) nothing))) nothing)";

/// The restart is under plus, so that its local is known present and the output absent.
const RESTARTED: &str = "(loop (seq (local 1 (seq (emit 1) (present 1 nothing (emit 0)))) pause))";

/// By the older rule of a local's absence the first took two rounds, and the second knew one output absent.
const SLOWER: &str = "(present 0 nothing (local 2 (local 3 (seq (emit 3) (present 3 nothing \
                      (present 2 (emit 1) (emit 2)))))))";
const DARKER: &str = "(present 1 (emit 1) (local 2 (local 3 (seq (emit 3) (present 3 nothing \
                      (present 2 (emit 0) (emit 2)))))))";

/// State records with inputs: what each gets on a block of three pauses and one input.
fn states(block: &[u8]) -> Vec<(Vec<u8>, u64, &'static str)> {
    let running = |active: u128| state_of(block, Phase::Running(active));
    let fresh = state_of(block, Phase::Fresh);
    let finished = set(&fresh, 8, 2);
    let mut states = vec![
        (fresh.clone(), 0, "0 0"),
        (fresh.clone(), 1, "0 0"),
        (fresh.clone(), 2, "b 0"),
        (fresh.clone(), 1 << 63, "b 0"),
        (finished.clone(), 0, "0 0"),
        (running(1), 0, "0 0"),
        (running(2), 1, "0 0"),
        (running(3), 0, "0 0"),
        (running(4), 0, "0 0"),
        (running(5), 0, "a 0 0 2"),
        (running(6), 0, "a 0 1 2"),
        (running(7), 0, "a 0 0 2"),
        (running(6), 2, "a 0 1 2"),
        (running(8), 2, "9 0"),
    ];
    // Sizes, lengths, kinds, phases and bits that are each one off.
    let mut bad = vec![Vec::new(), fresh[..25].to_vec(), with_more(&fresh, &[0]), old_record()];
    let words = [(0, 22), (0, 25), (0, 27), (2, 1), (2, 3), (8, 1), (8, 3), (8, 256), (10, 1)];
    bad.extend(words.iter().map(|&(at, word)| set(&fresh, at, word)));
    bad.push(set(&finished, 10, 1));
    bad.extend([8, 12, 13, 1 << 64, 1 << 127].iter().map(|&active| running(active)));
    states.extend(bad.into_iter().map(|state| (state, 0, "9 0")));
    states.extend(others(&running));
    states
}

/// A fresh state in the older form of 22 bytes, which named no block.
fn old_record() -> Vec<u8> {
    let mut bytes = vec![0; 22];
    bytes[0] = 22;
    bytes[2] = 2;
    bytes
}

/// States of another block than that of version 1 and 7 statements: after 9 and before 10 and 11.
fn others(running: &dyn Fn(u128) -> Vec<u8>) -> Vec<(Vec<u8>, u64, &'static str)> {
    let mut states = Vec::new();
    for (at, word) in [(4, 0), (4, 2), (4, 257), (4, 65535), (6, 0), (6, 6), (6, 8), (6, 263), (6, 3)] {
        for (active, inputs, wanted) in [(1, 0, "11 0 0 0"), (5, 0, "11 0 0 0"), (2, 2, "11 0 0 0"), (8, 0, "9 0")] {
            states.push((set(&running(active), at, word), inputs, wanted));
        }
        states.push((set(&set(&running(0), at, word), 8, 0), 0, "11 0 0 0"));
        states.push((set(&set(&running(0), at, word), 8, 2), 0, "11 0 0 0"));
        states.push((set(&running(0), at, word), 0, "9 0"));
        states.push((set(&set(&running(1), at, word), 8, 3), 0, "9 0"));
    }
    states
}

/// STATE, CLASH and INPUT.
fn state_calls(block: &[u8]) -> Vec<EdgeCall> {
    let mut calls: Vec<EdgeCall> = Vec::new();
    for (state, inputs, wanted) in states(block) {
        calls.push((Case { block: block.to_vec(), call: Call::Instant { state, inputs } }, wanted));
    }
    // The lowest first pause decides before the lowest second: 0 with 3, not 1 with 2.
    let pair = block_of(0, 0, "(seq (par pause (seq pause pause)) pause)");
    let state = state_of(&pair, Phase::Running(15));
    calls.push((Case { block: pair, call: Call::Instant { state, inputs: 0 } }, "a 0 0 3"));
    let branches = block_of(1, 0, "(present 0 pause pause)");
    let state = state_of(&branches, Phase::Running(3));
    calls.push((Case { block: branches, call: Call::Instant { state, inputs: 0 } }, "a 0 0 1"));
    calls
}

/// ROOM at both its ends, NOT CONSTRUCTIVE with a log, and the order of the tests.
fn log_calls(block: &[u8], stuck: &[u8]) -> Vec<EdgeCall> {
    let fresh = state_of(block, Phase::Fresh);
    let logged = |block: &[u8], state: &[u8], inputs: u64, size: usize, end: u64| Case {
        block: block.to_vec(),
        call: Call::Logged { state: state.to_vec(), inputs, log: vec![0x5A; size], end },
    };
    let mut calls = Vec::new();
    for (size, end) in [(32, 0), (33, 0), (33, 1), (64, 32), (68, 17)] {
        calls.push((logged(block, &fresh, 1, size, end), "0 0"));
    }
    for (size, end) in [
        (31, 0), (24, 0), (33, 2), (64, 33), (64, 64), (64, 65), (0, 0), (0, 1),
        (64, 1 << 32), (64, u64::MAX - 31), (64, u64::MAX),
    ] {
        calls.push((logged(block, &fresh, 1, size, end), "c 0"));
    }
    let (begun, going) = (state_of(stuck, Phase::Fresh), state_of(stuck, Phase::Running(1)));
    calls.push((logged(block, &fresh, 2, 31, 0), "b 0"));
    let clashing = state_of(block, Phase::Running(5));
    calls.push((logged(block, &clashing, 2, 31, 0), "a 0 0 2"));
    calls.push((logged(block, &set(&clashing, 4, 7), 2, 31, 0), "11 0 0 0"));
    calls.push((logged(block, &set(&fresh, 6, 8), 0, 38, 3), "11 0 0 0 0 0 0 0 0 0 0"));
    calls.push((logged(block, &fresh[..25], 2, 31, 0), "9 0"));
    calls.push((logged(stuck, &going, 0, 38, 3), "d 0 0 0 0 0 1 0 1 0 0"));
    calls.push((logged(stuck, &going, 0, 34, 3), "c 0 0 0 0 0 0 0 0 0 0"));
    calls.push((logged(stuck, &begun, 1, 38, 3), "0 0 0 0 0 0 0 1 2 1 23"));
    calls.push((logged(&block[..20], &fresh[..25], 2, 0, 9), "1 12"));
    calls
}
