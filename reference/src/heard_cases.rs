//! Calls with two input sets: random ones, and INPUT and ROOM at their boundaries.

use crate::block::Block;
use crate::cases::{some_edge_block, some_log, some_state, spoil, with_version, Call, Case};
use crate::chance::Chance;
use crate::edge_calls::{bad_blocks, state_of, EdgeCall};
use crate::edges::{block_of, set};
use crate::generate::{some_block, Wish};
use crate::mutate::some_mixed_block;
use crate::reaction::Phase;
use crate::values::{signal_bits, Heard};

/// Legal sets: each input is heard present, heard absent or not heard.
pub fn some_heard(inputs: u16, chance: &mut Chance) -> Heard {
    let (all, one, other) = (signal_bits(0, inputs), chance.number(), chance.number());
    match chance.below(6) {
        0 => Heard { present: 0, absent: 0 },
        1 => Heard::all(one & all, inputs),
        _ => Heard { present: one & other & all, absent: one & !other & all },
    }
}

/// Legal sets, but now and then with a bit too many in one of them, or one in both.
pub fn maybe_bad_heard(inputs: u16, chance: &mut Chance) -> Heard {
    let mut heard = some_heard(inputs, chance);
    let bit = match chance.below(3) {
        0 => 1u64.checked_shl(inputs as u32).unwrap_or(0),
        1 => 1 << 63,
        _ => 1u64.checked_shl(chance.below(inputs.max(1) as usize) as u32).unwrap_or(0),
    };
    match chance.below(24) {
        0 => heard.present |= bit,
        1 => heard.absent |= bit,
        2 => (heard.present, heard.absent) = (heard.present | bit, heard.absent | bit),
        _ => {}
    }
    heard
}

/// Blocks with some inputs, with many, without any, and at a boundary.
pub fn some_input_block(chance: &mut Chance) -> (Vec<u8>, Block) {
    match chance.weighed(&[60, 22, 6, 6, 6]) {
        0 => {
            let wish = Wish { inputs: chance.pick(&[1, 1, 2, 2, 3, 4]), ..Wish::some(chance, 2, 24) };
            some_block(chance, wish)
        }
        1 => some_mixed_block(chance, 1, 20),
        2 => {
            let wish = Wish { inputs: 1 + chance.below(12) as u16, ..Wish::some(chance, 30, 120) };
            some_block(chance, wish)
        }
        3 => {
            let wish = Wish { inputs: 30, ..Wish::wide(chance) };
            some_block(chance, wish)
        }
        _ => some_edge_block(chance),
    }
}

/// A random call with two input sets.
pub fn some_heard_case(chance: &mut Chance) -> Case {
    let (mut bytes, block) = some_input_block(chance);
    let block = with_version(&mut bytes, block, chance);
    let (state, heard) = (some_state(&block, chance), maybe_bad_heard(block.header.inputs, chance));
    let call = match chance.percent(60) {
        true => Call::Heard { state, heard },
        false => {
            let (log, end) = some_log(chance);
            Call::HeardLogged { state, heard, log, end }
        }
    };
    if !bytes.is_empty() && chance.percent(6) {
        spoil(&mut bytes, chance);
    }
    Case { block: bytes, call }
}

/// Input sets that a block with two inputs gets 0 or 11 for.
const SETS: [(u64, u64, &str); 20] = [
    (0, 0, "0 0"), (1, 0, "0 0"), (0, 1, "0 0"), (1, 2, "0 0"), (2, 1, "0 0"), (3, 0, "0 0"), (0, 3, "0 0"),
    (1, 1, "b 0"), (2, 2, "b 0"), (3, 1, "b 0"), (2, 3, "b 0"), (3, 3, "b 0"),
    (4, 0, "b 0"), (0, 4, "b 0"), (4, 4, "b 0"), (5, 2, "b 0"), (1, 6, "b 0"),
    (1 << 63, 0, "b 0"), (0, 1 << 63, "b 0"), (u64::MAX, 0, "b 0"),
];

/// The worked instants with inputs not heard: inputs, outputs, statement, state, present, absent, and the answer up to the active pauses.
const WORKED: [(u16, u16, &str, Phase, u64, u64, &str); 12] = [
    (1, 1, LATER, Phase::Fresh, 0, 0, "0 0 0 0 0 0 0 1 2 1"),
    (1, 1, LATER, Phase::Running(1), 0, 0, "d 0 0 0 0 0 1 0 1 0"),
    (1, 1, LATER, Phase::Running(1), 1, 0, "0 0 0 0 2 0 0 0 2 0"),
    (1, 1, LATER, Phase::Running(1), 0, 1, "0 0 0 0 0 0 0 0 2 0"),
    (1, 1, LATER, Phase::Running(1), 1, 1, "b 0 0 0 0 0 0 0 0 0"),
    (1, 1, "(present 0 (emit 1) (emit 1))", Phase::Fresh, 0, 0, "d 0 0 0 0 0 1 0 1 0"),
    (1, 2, CYCLE, Phase::Fresh, 0, 0, "d 0 0 0 0 0 2 0 1 0"),
    (1, 2, CYCLE, Phase::Fresh, 1, 0, "0 0 0 0 0 0 0 0 3 0"),
    (1, 2, GUARDED, Phase::Fresh, 0, 0, "0 0 0 0 0 0 0 0 3 0"),
    (1, 2, GUARDED, Phase::Fresh, 0, 1, "0 0 0 0 0 0 0 0 2 0"),
    (1, 0, "(present 0 nothing nothing)", Phase::Fresh, 0, 0, "d 0 0 0 0 0 0 0 1 0"),
    (1, 1, "(suspend 0 pause)", Phase::Running(1), 0, 0, "d 0 0 0 0 2 0 0 2 0"),
];

const LATER: &str = "(seq pause (present 0 (emit 1) nothing))";
const CYCLE: &str = "(present 0 (present 2 (emit 1) nothing) (present 1 (emit 2) nothing))";
const GUARDED: &str = "(present 2 (present 0 (emit 1) nothing) nothing)";

/// Calls with two input sets at their boundaries, with answers worked out by hand.
pub fn heard_edges() -> Vec<EdgeCall> {
    let mut edges = Vec::new();
    for (inputs, outputs, text, phase, present, absent, wanted) in WORKED {
        let block = block_of(inputs, outputs, text);
        let (state, heard) = (state_of(&block, phase), Heard { present, absent });
        edges.push((Case { block: block.clone(), call: Call::Heard { state: state.clone(), heard } }, wanted));
        let call = Call::HeardLogged { state, heard, log: vec![0xA5; 48], end: 8 };
        edges.push((Case { block, call }, wanted));
    }
    let block = block_of(2, 1, "(seq (par pause pause) (seq pause (present 0 (emit 2) nothing)))");
    for (present, absent, wanted) in SETS {
        let (state, heard) = (state_of(&block, Phase::Fresh), Heard { present, absent });
        edges.push((Case { block: block.clone(), call: Call::Heard { state: state.clone(), heard } }, wanted));
        let call = Call::HeardLogged { state, heard, log: vec![0x5A; 40], end: 5 };
        edges.push((Case { block: block.clone(), call }, wanted));
    }
    edges.extend(wide_sets());
    edges.extend(heard_orders(&block));
    edges.extend(heard_rooms(&block));
    edges.extend(refused_blocks());
    edges
}

/// 64 inputs and none: every bit is good, and no bit is.
fn wide_sets() -> Vec<EdgeCall> {
    let mut edges = Vec::new();
    let sets = [(u64::MAX, 0, "0 0"), (0, u64::MAX, "0 0"), (1, 1 << 63, "0 0"), (1 << 63, 1 << 63, "b 0"), (0, 0, "0 0")];
    for (inputs, all) in [(64, &sets[..]), (0, &[(0, 0, "0 0"), (1, 0, "b 0"), (0, 1, "b 0"), (1, 1, "b 0")][..])] {
        let block = block_of(inputs, 0, "(par pause nothing)");
        for &(present, absent, wanted) in all {
            let (state, heard) = (state_of(&block, Phase::Fresh), Heard { present, absent });
            edges.push((Case { block: block.clone(), call: Call::Heard { state, heard } }, wanted));
        }
    }
    edges
}

/// 9, 17, 10 and 11 before each other and before 12.
fn heard_orders(block: &[u8]) -> Vec<EdgeCall> {
    let (both, good) = (Heard { present: 1, absent: 1 }, Heard { present: 1, absent: 0 });
    let (fresh, clashing) = (state_of(block, Phase::Fresh), state_of(block, Phase::Running(5)));
    let mut edges = Vec::new();
    for (state, heard, wanted) in [
        (fresh[..25].to_vec(), both, "9 0 0 0"),
        (set(&fresh, 8, 3), both, "9 0 0 0"),
        (set(&clashing, 4, 9), both, "11 0 0 0"),
        (clashing.clone(), both, "a 0 0 2"),
        (clashing, good, "a 0 0 2"),
        (fresh.clone(), both, "b 0 0 0"),
        (fresh, good, "c 0 0 0"),
    ] {
        let call = Call::HeardLogged { state: state.clone(), heard, log: vec![0x5A; 31], end: 0 };
        edges.push((Case { block: block.to_vec(), call }, wanted));
        let wanted = if wanted == "c 0 0 0" { "0 0 0 0" } else { wanted };
        edges.push((Case { block: block.to_vec(), call: Call::Heard { state, heard } }, wanted));
    }
    edges
}

/// ROOM is counted against 32.
fn heard_rooms(block: &[u8]) -> Vec<EdgeCall> {
    let sizes = [
        (32, 0, "0 0"), (33, 1, "0 0"), (64, 32, "0 0"), (31, 0, "c 0"), (24, 0, "c 0"), (33, 2, "c 0"), (64, 33, "c 0"),
        (64, 64, "c 0"), (64, 65, "c 0"), (0, 0, "c 0"), (64, u64::MAX, "c 0"), (64, u64::MAX - 31, "c 0"),
    ];
    let case = |&(size, end, wanted): &(usize, u64, &'static str)| {
        let (state, heard) = (state_of(block, Phase::Fresh), Heard { present: 0, absent: 2 });
        let call = Call::HeardLogged { state, heard, log: vec![0x5A; size], end };
        (Case { block: block.to_vec(), call }, wanted)
    };
    sizes.iter().map(case).collect()
}

/// 1 to 8 come before all else.
fn refused_blocks() -> Vec<EdgeCall> {
    let mut edges = Vec::new();
    for (block, wanted) in bad_blocks() {
        let (state, heard) = (vec![0; 26], Heard { present: 3, absent: 1 });
        edges.push((Case { block: block.clone(), call: Call::Heard { state: state.clone(), heard } }, wanted));
        edges.push((Case { block, call: Call::HeardLogged { state, heard, log: Vec::new(), end: 1 } }, wanted));
    }
    edges
}
