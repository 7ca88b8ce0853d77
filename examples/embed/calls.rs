//! Each call of the wrapper as it should be and as it should not, with what document 01 says of it: the answer, and every byte that is lent
//! and those around it. Prints a line for each thing that is not so; ends with 0 where all is.

use foldheron::{check, excerpt, fresh, instant, instant_heard, instant_heard_logged, instant_logged, name_of};
use foldheron::{reason, Asked, Doubt, Instant, Logged, Reaction, Reason, Refusal, Summary};
use foldheron::{alike, corridor, double_loops, maze, Corridor, Likeness, Room, Rooms, RUN_MOST};
use foldheron::{fetch, install, withdraw, BLOCK_MOST, HELD_MOST, SHELF};
use foldheron::{convert, read_text, write_text, TEXT_MOST};
use std::sync::atomic::{AtomicUsize, Ordering};

static WRONG: AtomicUsize = AtomicUsize::new(0);

macro_rules! expect {
    ($fact:expr) => {
        if !$fact {
            WRONG.fetch_add(1, Ordering::Relaxed);
            println!("calls.rs:{}: not so: {}", line!(), stringify!($fact));
        }
    };
}

/// suspend, on I: pause; emit O. Version 7. The statements stand at 14, 20, 24 and 28.
const BLOCK: [u8; 34] =
    [14, 0, 1, 0, 1, 0, 7, 0, 1, 0, 1, 0, 0, 0, 6, 0, 20, 0, 0, 0, 4, 0, 21, 0, 4, 0, 17, 0, 6, 0, 18, 0, 1, 0];

/// emit A parallel (present O then emit O else nothing), with outputs A, O and B, which is never emitted. Version 1.
const CYCLE: [u8; 40] = [
    14, 0, 1, 0, 1, 0, 1, 0, 0, 0, 3, 0, 0, 0, 4, 0, 23, 0, 6, 0, 18, 0, 0, 0, 6, 0, 19, 0, 1, 0, 6, 0, 18, 0, 1, 0, 4, 0, 16, 0,
];

/// pause; pause, whose two pauses clash.
const PAUSES: [u8; 26] = [14, 0, 1, 0, 1, 0, 7, 0, 0, 0, 0, 0, 0, 0, 4, 0, 21, 0, 4, 0, 17, 0, 4, 0, 17, 0];

/// pause; emit O, with the first block's interface.
const PLAIN: [u8; 28] = [14, 0, 1, 0, 1, 0, 7, 0, 1, 0, 1, 0, 0, 0, 4, 0, 21, 0, 4, 0, 17, 0, 6, 0, 18, 0, 1, 0];

/// present I then nothing else emit O.
const UNLESS: [u8; 30] = [14, 0, 1, 0, 1, 0, 7, 0, 1, 0, 1, 0, 0, 0, 6, 0, 19, 0, 0, 0, 4, 0, 16, 0, 6, 0, 18, 0, 1, 0];

/// A state: the version and the statement count of its block, its phase and the first of its pauses.
const fn state_of(version: u8, statements: u8, phase: u8, active: u8) -> [u8; 26] {
    [26, 0, 2, 0, version, 0, statements, 0, phase, 0, active, 0, 0, 0, 0, 0, 0, 0, 0, 0, 0, 0, 0, 0, 0, 0]
}

/// A state of the first block.
const fn state(phase: u8, active: u8) -> [u8; 26] {
    state_of(7, 4, phase, active)
}

/// A log record: the inputs present and absent, the outputs, the code, and two rounds.
fn record(present: u8, absent: u8, outputs: u8, code: u8) -> [u8; 32] {
    let mut bytes = [0; 32];
    for (at, byte) in [(0, 32), (2, 3), (4, present), (12, absent), (20, outputs), (28, code), (30, 2)] {
        bytes[at] = byte;
    }
    bytes
}

fn refused(number: u16, place: usize) -> Refusal {
    Refusal { number, place }
}

fn answered(present: u64, code: u16, rounds: u16, active: u16) -> Instant {
    Instant::Answered(Reaction { present, code, rounds, active })
}

fn try_check() {
    let good = Summary { version: 7, inputs: 1, outputs: 1, locals: 0, statements: 4, pauses: 1 };
    expect!(check(&BLOCK) == Ok(good));
    expect!(check(&BLOCK[..33]) == Err(refused(1, 28)));
    expect!(check(&BLOCK[..28]) == Err(refused(7, 28)));
    expect!(check(&[]) == Err(refused(1, 0)));
    expect!(check(&[0; 3087]) == Err(refused(4, 0)));
}

fn try_fresh() {
    let mut lent = [0xA5; 64];
    expect!(fresh(&BLOCK, &mut lent[8..30]) == Err(refused(9, 0)));
    expect!(fresh(&BLOCK, &mut lent[8..33]) == Err(refused(9, 0)));
    expect!(fresh(&BLOCK, &mut lent[8..35]) == Err(refused(9, 0)));
    expect!(fresh(&BLOCK, &mut []) == Err(refused(9, 0)));
    expect!(fresh(&BLOCK[..33], &mut lent[8..34]) == Err(refused(1, 28)));
    expect!(lent == [0xA5; 64]);
    expect!(fresh(&BLOCK, &mut lent[8..34]) == Ok(()));
    expect!(lent[8..34] == state(0, 0) && lent[..8] == [0xA5; 8] && lent[34..] == [0xA5; 30]);
}

/// The document's run, and one instant more, in which the block is finished.
fn try_instant() {
    let mut lent = state(0, 0);
    expect!(instant(&BLOCK, &mut lent, 1) == answered(0, 1, 2, 1) && lent == state(1, 1));
    expect!(instant(&BLOCK, &mut lent, 1) == answered(0, 1, 2, 1) && lent == state(1, 1));
    expect!(instant(&BLOCK, &mut lent, 2) == Instant::Refused(refused(11, 0)) && lent == state(1, 1));
    expect!(instant(&BLOCK, &mut lent, 0) == answered(2, 0, 2, 0) && lent == state(2, 0));
    expect!(instant(&BLOCK, &mut lent, 0) == answered(0, 0, 2, 0) && lent == state(2, 0));
}

fn try_refusals() {
    let doubt = Instant::NotConstructive(Doubt { present: 1, absent: 4, undecided: 1, rounds: 2 });
    let (mut lent, mut both, mut phase) = (state_of(1, 5, 0, 0), state_of(7, 3, 1, 3), state(3, 0));
    expect!(instant(&CYCLE, &mut lent, 0) == doubt && lent == state_of(1, 5, 0, 0));
    expect!(instant(&PAUSES, &mut both, 0) == Instant::Clash(0, 1) && both == state_of(7, 3, 1, 3));
    expect!(instant(&BLOCK, &mut both, 0) == Instant::Refused(refused(9, 0)) && both == state_of(7, 3, 1, 3));
    expect!(instant(&BLOCK, &mut phase, 0) == Instant::Refused(refused(9, 0)) && phase == state(3, 0));
    expect!(instant(&CYCLE, &mut lent[..25], 0) == Instant::Refused(refused(9, 0)) && lent == state_of(1, 5, 0, 0));
    expect!(instant(&BLOCK[..33], &mut lent, 0) == Instant::Refused(refused(1, 28)) && lent == state_of(1, 5, 0, 0));
}

/// A state that names another version or count: after all of 9, before 10 and 11.
fn try_other_block() {
    let other = Instant::Refused(refused(17, 0));
    for mut lent in [state_of(8, 3, 0, 0), state_of(7, 2, 0, 0), state_of(7, 4, 1, 3), state_of(3, 7, 2, 0)] {
        let kept = lent;
        expect!(instant(&PAUSES, &mut lent, 1) == other && lent == kept);
    }
    for mut lent in [state_of(8, 3, 3, 0), state_of(8, 3, 1, 4), state_of(8, 3, 1, 0)] {
        expect!(instant(&PAUSES, &mut lent, 1) == Instant::Refused(refused(9, 0)));
    }
}

fn try_logged() {
    let record = record(1, 0, 0, 1);
    let none = Logged { answer: Instant::Refused(refused(12, 0)), end: 0 };
    let (mut log, mut lent, mut other) = ([0xA5; 64], state(0, 0), state_of(1, 5, 0, 0));
    expect!(instant_logged(&BLOCK, &mut lent, 1, &mut log[..36], 5) == none);
    expect!(instant_logged(&BLOCK, &mut lent, 1, &mut log[..36], 37) == none);
    expect!(instant_logged(&BLOCK, &mut lent, 1, &mut log, usize::MAX) == none);
    expect!(instant_logged(&BLOCK, &mut lent, 1, &mut [], 0) == none);
    let in_doubt = instant_logged(&CYCLE, &mut other, 0, &mut log, 5);
    expect!(in_doubt.answer.number() == 13 && in_doubt.end == 0);
    expect!(instant_logged(&CYCLE, &mut lent, 0, &mut log, 5) == Logged { answer: Instant::Refused(refused(17, 0)), end: 0 });
    expect!(log == [0xA5; 64] && lent == state(0, 0) && other == state_of(1, 5, 0, 0));
    let good = Logged { answer: answered(0, 1, 2, 1), end: 37 };
    expect!(instant_logged(&BLOCK, &mut lent, 1, &mut log[..37], 5) == good && lent == state(1, 1));
    expect!(log[..5] == [0xA5; 5] && log[5..37] == record && log[37..] == [0xA5; 27]);
}

/// pause; present I then emit O else nothing: its first instant does not look at I, its second does.
const LATE: [u8; 38] = [
    14, 0, 1, 0, 1, 0, 0, 0, 1, 0, 1, 0, 0, 0, 4, 0, 21, 0, 4, 0, 17, 0, 6, 0, 19, 0, 0, 0, 6, 0, 18, 0, 1, 0, 4, 0, 16, 0,
];

/// The worked instants with inputs not heard, and the refusals of two sets.
fn try_heard() {
    let doubt = Instant::NotConstructive(Doubt { present: 0, absent: 0, undecided: 1, rounds: 1 });
    let (begin, waits) = (state_of(0, 5, 0, 0), state_of(0, 5, 1, 1));
    let mut lent = begin;
    expect!(instant_heard(&LATE, &mut lent, 0, 0) == answered(0, 1, 2, 1) && lent == waits);
    expect!(instant_heard(&LATE, &mut lent, 0, 0) == doubt && lent == waits);
    for (present, absent) in [(1, 1), (2, 0), (0, 2), (0, 1 << 63), (3, 0)] {
        expect!(instant_heard(&LATE, &mut lent, present, absent) == Instant::Refused(refused(11, 0)) && lent == waits);
    }
    expect!(instant_heard(&LATE, &mut lent, 1, 0) == answered(2, 0, 2, 0) && lent == state_of(0, 5, 2, 0));
    lent = waits;
    expect!(instant_heard(&LATE, &mut lent, 0, 1) == answered(0, 0, 2, 0) && lent == state_of(0, 5, 2, 0));
}

fn try_heard_logged() {
    let (mut log, mut lent) = ([0xA5; 96], state_of(0, 5, 0, 0));
    let none = |number| Logged { answer: Instant::Refused(refused(number, 0)), end: 0 };
    expect!(instant_heard_logged(&LATE, &mut lent, 0, 0, &mut log[..36], 5) == none(12));
    expect!(instant_heard_logged(&LATE, &mut lent, 1, 1, &mut log[..36], 5) == none(11));
    expect!(log == [0xA5; 96] && lent == state_of(0, 5, 0, 0));
    expect!(instant_heard_logged(&LATE, &mut lent, 0, 0, &mut log, 5) == Logged { answer: answered(0, 1, 2, 1), end: 37 });
    expect!(instant_heard_logged(&LATE, &mut lent, 0, 0, &mut log, 37).answer.number() == 13);
    expect!(log[5..37] == record(0, 0, 0, 1) && log[37..] == [0xA5; 59]);
    expect!(instant_heard_logged(&LATE, &mut lent, 0, 1, &mut log, 37) == Logged { answer: answered(0, 0, 2, 0), end: 69 });
    expect!(log[..5] == [0xA5; 5] && log[37..69] == record(0, 1, 0, 0) && log[69..] == [0xA5; 27]);
}

/// A shelf of these entries, laid out by hand: party, name and block.
fn shelf_of(entries: &[(u16, u16, &[u8])]) -> Vec<u8> {
    let mut shelf = Vec::new();
    for (party, name, block) in entries {
        for field in [8 + block.len() as u16, 5, *party, *name] {
            shelf.extend_from_slice(&field.to_le_bytes());
        }
        shelf.extend_from_slice(block);
    }
    shelf.resize(SHELF, 0);
    shelf
}

/// Installs and fetches from the empty shelf on: each byte of the shelf, and what is told, the first refusal that applies.
fn try_shelf() {
    expect!((18..23).filter_map(name_of).collect::<Vec<_>>().join(",") == "PARTY,SHELF,TAKEN,QUOTA,ABSENT");
    let mut shelf = vec![0; SHELF];
    expect!(install(&mut shelf, 0, 7, &BLOCK) == Ok(()) && shelf == shelf_of(&[(0, 7, &BLOCK)]));
    expect!(install(&mut shelf, 1, 7, &CYCLE) == Ok(()) && install(&mut shelf, 0, u16::MAX, &BLOCK) == Ok(()));
    let all = shelf_of(&[(0, 7, &BLOCK), (1, 7, &CYCLE), (0, u16::MAX, &BLOCK)]);
    expect!(install(&mut shelf, 0, 7, &PAUSES) == Err(refused(20, 0)));
    expect!(install(&mut shelf, 0, 7, &BLOCK[..33]) == Err(refused(1, 28)));
    expect!(install(&mut shelf, 2, 7, &BLOCK[..33]) == Err(refused(18, 0)));
    expect!(install(&mut shelf[..SHELF - 1], 0, 7, &BLOCK[..33]) == Err(refused(19, 0)));
    expect!(install(&mut shelf[..SHELF - 1], 2, 7, &BLOCK) == Err(refused(18, 0)) && shelf == all);
    let mut into = [0xA5; BLOCK_MOST];
    expect!(fetch(&shelf, 1, u16::MAX, &mut into) == Err(refused(22, 0)));
    expect!(fetch(&shelf, 2, 7, &mut into) == Err(refused(18, 0)));
    expect!(fetch(&shelf[1..], 0, 7, &mut into) == Err(refused(19, 0)));
    expect!(into == [0xA5; BLOCK_MOST]);
    expect!(fetch(&shelf, 1, 7, &mut into) == Ok(&CYCLE[..]) && into[CYCLE.len()..] == [0xA5; BLOCK_MOST - CYCLE.len()]);
    expect!(fetch(&shelf, 0, u16::MAX, &mut into) == Ok(&BLOCK[..]));
}

/// A party that holds 32,718 bytes of its 32,768: one entry of 42 bytes fits, and no second; the other party's room is its own.
fn try_quota() {
    let mine: Vec<(u16, u16, &[u8])> = (0..779).map(|name| (0, name, &BLOCK[..])).collect();
    let mut shelf = shelf_of(&mine);
    expect!(779 * 42 + 50 == HELD_MOST);
    expect!(install(&mut shelf, 0, 900, &BLOCK) == Ok(()));
    expect!(install(&mut shelf, 0, 901, &BLOCK) == Err(refused(21, 0)) && install(&mut shelf, 0, 900, &BLOCK) == Err(refused(20, 0)));
    expect!(install(&mut shelf, 1, 901, &BLOCK) == Ok(()));
}

/// Every way to withdraw the three entries one after the other: what is left keeps its content and order, and zeros come behind it.
fn try_withdraw() {
    let all: [(u16, u16, &[u8]); 3] = [(0, 7, &BLOCK), (1, 7, &CYCLE), (0, 8, &PAUSES)];
    for order in [[0, 1, 2], [0, 2, 1], [1, 0, 2], [1, 2, 0], [2, 0, 1], [2, 1, 0]] {
        let (mut left, mut shelf) = (all.to_vec(), shelf_of(&all));
        for (party, name, _) in order.map(|n: usize| all[n]) {
            left.retain(|entry| (entry.0, entry.1) != (party, name));
            expect!(withdraw(&mut shelf, 2, name) == Err(refused(18, 0)) && withdraw(&mut shelf[1..], 1, name) == Err(refused(19, 0)));
            expect!(withdraw(&mut shelf, party, name) == Ok(()) && shelf == shelf_of(&left));
            expect!(withdraw(&mut shelf, party, name) == Err(refused(22, 0)) && shelf == shelf_of(&left));
        }
        expect!(install(&mut shelf, 1, 7, &CYCLE) == Ok(()) && shelf == shelf_of(&all[1..2]));
    }
}

fn try_excerpt() {
    expect!(excerpt(&BLOCK, 0) == Ok(&BLOCK[14..]));
    expect!(excerpt(&BLOCK, 1) == Ok(&BLOCK[20..]));
    expect!(excerpt(&BLOCK, 2) == Ok(&BLOCK[24..28]));
    expect!(excerpt(&BLOCK, 3) == Ok(&BLOCK[28..]));
    expect!(excerpt(&BLOCK, 4) == Err(refused(14, 0)));
    expect!(excerpt(&BLOCK, usize::MAX) == Err(refused(14, 0)));
    expect!(excerpt(&BLOCK[..33], 0) == Err(refused(1, 28)));
}

/// Every question about the first block's statements, from each phase and with I present, absent and not heard, worked by hand: the suspend is 0, the
/// sequence 1, the pause 2, the emit 3.
fn try_reason() {
    let not_so = Reason::Refused(refused(16, 0));
    let (begin, waits, ended) = (state(0, 0), state(1, 1), state(2, 0));
    let told = [
        (begin, 0, 0, Asked::NotExecuted(3), Reason::Statement(3)),
        (begin, 0, 0, Asked::Refused, not_so),
        (waits, 0, 0, Asked::Refused, Reason::Statement(0)),
        (waits, 1, 0, Asked::NotExecuted(3), Reason::Statement(1)),
        (waits, 0, 1, Asked::Present(1), Reason::Statement(3)),
        (waits, 0, 1, Asked::Present(0), not_so),
        (waits, 1, 0, Asked::Present(0), not_so),
        (waits, 0, 1, Asked::Present(64), not_so),
        (waits, 0, 1, Asked::Present(65_537), not_so),
        (waits, 0, 1, Asked::NotExecuted(3), not_so),
        (waits, 0, 0, Asked::NotExecuted(3), not_so),
        (ended, 0, 0, Asked::NotExecuted(3), Reason::Statement(0)),
        (ended, 0, 0, Asked::NotExecuted(2), not_so),
        (ended, 0, 0, Asked::NotExecuted(usize::MAX), not_so),
    ];
    for (held, present, absent, asked, wanted) in told {
        expect!(reason(&BLOCK, &held, present, absent, asked) == wanted);
    }
    expect!(reason(&CYCLE, &state_of(1, 5, 0, 0), 0, 0, Asked::Refused) == Reason::Statement(2));
    expect!(reason(&BLOCK[..33], &waits[1..], 3, 3, Asked::Refused) == Reason::Refused(refused(1, 28)));
    expect!(reason(&BLOCK, &waits[1..], 3, 3, Asked::Refused) == Reason::Refused(refused(9, 0)));
    expect!(reason(&PAUSES, &state_of(8, 3, 1, 3), 1, 0, Asked::Refused) == Reason::Refused(refused(17, 0)));
    expect!(reason(&PAUSES, &state_of(7, 3, 1, 3), 1, 0, Asked::Refused) == Reason::Clash(0, 1));
    expect!(reason(&BLOCK, &waits, 1, 1, Asked::Present(1)) == Reason::Refused(refused(11, 0)));
    let numbers = [Reason::Statement(7), Reason::Clash(0, 1), not_so];
    expect!(numbers.iter().map(Reason::number).eq([0, 10, 16]));
}

/// The first block waits in its second instant where I is present, and the plain one does not.
fn try_alike() {
    let mut run = [0xA5; RUN_MOST + 4];
    let wide = [14, 0, 1, 0, 1, 0, 7, 0, 7, 0, 0, 0, 0, 0, 4, 0, 16, 0];
    let cut = &BLOCK[..33];
    expect!(alike(&BLOCK, &BLOCK, &mut run) == Likeness::Alike && alike(&CYCLE, &CYCLE, &mut run) == Likeness::Alike);
    expect!(alike(cut, cut, &mut run) == Likeness::First(refused(1, 28)) && alike(&PLAIN, cut, &mut run) == Likeness::Second(refused(1, 28)));
    expect!(alike(&BLOCK, &PAUSES, &mut run) == Likeness::Refused(refused(23, 0)));
    expect!(alike(&wide, &wide, &mut run) == Likeness::Refused(refused(24, 0)));
    expect!(alike(&BLOCK, &PLAIN, &mut run[..RUN_MOST - 1]) == Likeness::Refused(refused(12, 0)));
    expect!(run == [0xA5; RUN_MOST + 4]);
    expect!(alike(&PLAIN, &BLOCK, &mut run) == Likeness::Different(&[0, 1]));
    expect!(run[..2] == [0, 1] && run[2..] == [0xA5; RUN_MOST + 2]);
    let numbers = [Likeness::Alike, Likeness::Different(&[0, 1]), Likeness::Second(refused(1, 28)), Likeness::Refused(refused(25, 0))];
    expect!(numbers.iter().map(Likeness::number).eq([0, 0, 1, 25]));
}

/// loop: local L: pause, and its body twice, each copy with a local of its own.
fn try_double_loops() {
    let block = [14, 0, 1, 0, 1, 0, 7, 0, 0, 0, 0, 0, 1, 0, 4, 0, 22, 0, 6, 0, 26, 0, 0, 0, 4, 0, 17, 0];
    let twice = [
        14, 0, 1, 0, 1, 0, 7, 0, 0, 0, 0, 0, 2, 0, 4, 0, 22, 0, 4, 0, 21, 0, 6, 0, 26, 0, 0, 0, 4, 0, 17, 0, 6, 0, 26, 0, 1, 0, 4, 0, 17, 0,
    ];
    let (mut out, mut run) = ([0xA5; BLOCK_MOST], [0; RUN_MOST]);
    expect!(double_loops(&block, &mut out[..41]) == Err(refused(12, 0)) && double_loops(&BLOCK[..33], &mut out) == Err(refused(1, 28)));
    expect!(out == [0xA5; BLOCK_MOST]);
    expect!(double_loops(&block, &mut out) == Ok(&twice) && out[42..] == [0xA5; BLOCK_MOST - 42]);
    expect!(alike(&block, &twice, &mut run) == Likeness::Alike);
}

/// await I; sustain O, in edition 2 and in edition 1.
fn try_convert() {
    let everyday = [14, 0, 1, 0, 2, 0, 7, 0, 1, 0, 1, 0, 0, 0, 4, 0, 21, 0, 6, 0, 34, 0, 0, 0, 6, 0, 33, 0, 1, 0];
    let form = [
        14, 0, 1, 0, 1, 0, 7, 0, 1, 0, 1, 0, 0, 0, 4, 0, 21, 0, 4, 0, 24, 0, 4, 0, 22, 0, 4, 0, 21, 0, 4, 0, 17, 0, 6, 0, 19, 0, 0, 0, 6, 0, 25, 0, 0, 0,
        4, 0, 16, 0, 4, 0, 22, 0, 4, 0, 21, 0, 6, 0, 18, 0, 1, 0, 4, 0, 17, 0,
    ];
    let mut out = [0xA5; BLOCK_MOST];
    expect!(convert(&everyday, &mut out[..67]) == Err(refused(12, 0)) && convert(&BLOCK, &mut out) == Err(refused(3, 0)));
    expect!(convert(&everyday[..29], &mut out) == Err(refused(1, 24)) && check(&everyday) == Err(refused(3, 0)));
    expect!(out == [0xA5; BLOCK_MOST]);
    expect!(convert(&everyday, &mut out[..68]) == Ok(&form) && convert(&everyday, &mut out) == Ok(&form) && out[68..] == [0xA5; BLOCK_MOST - 68]);
    let mut state = [0; 26];
    expect!(fresh(&form, &mut state).is_ok());
    let told: Vec<u64> = [1, 0, 1, 0].iter().map(|&inputs| match instant(&form, &mut state, inputs) {
        Instant::Answered(reaction) => reaction.present,
        _ => u64::MAX,
    }).collect();
    expect!(told == [0, 0, 2, 2]);
}

fn try_write_text() {
    let text = b"version 7;\ninput I0;\noutput O1;\nsuspend\n  pause;\n  emit O1\nwhen I0\n";
    let (mut out, size) = (vec![0xA5; TEXT_MOST], text.len());
    expect!(write_text(&BLOCK, &mut out[..size - 1]) == Err(refused(12, 0)) && write_text(&BLOCK[..33], &mut out) == Err(refused(1, 28)));
    expect!(out.iter().all(|&byte| byte == 0xA5));
    expect!(write_text(&BLOCK, &mut out[..size]) == Ok(&text[..]) && write_text(&BLOCK, &mut out) == Ok(&text[..]));
    expect!(out[size..].iter().all(|&byte| byte == 0xA5));
}

/// Texts are read in any layout and with any names.
fn try_read_text() {
    let text = b"version 7;input DEMAND;output RUN;[suspend pause;[emit RUN]when DEMAND]";
    let mut out = [0xA5; BLOCK_MOST];
    expect!(read_text(text, &mut out[..33]) == Err(refused(12, 0)) && read_text(b"version 7;loop nothing end", &mut out) == Err(refused(8, 14)));
    expect!(read_text(b"version 7;output O;emit P", &mut out) == Err(refused(15, 24)) && read_text(b"", &mut out) == Err(refused(15, 0)));
    expect!(out == [0xA5; BLOCK_MOST]);
    expect!(read_text(text, &mut out) == Ok(&BLOCK) && out[34..] == [0xA5; BLOCK_MOST - 34]);
    let (mut lent, mut again) = (vec![0; TEXT_MOST], [0; BLOCK_MOST]);
    for block in [&BLOCK[..], &CYCLE, &PAUSES, &PLAIN, &UNLESS] {
        let written = write_text(block, &mut lent).expect("a good block");
        expect!(read_text(written, &mut again) == Ok(block));
    }
}

/// In the cycle A wins, B loses and O draws; in the other block O is emitted unless I is there.
fn try_maze() {
    expect!(maze(&CYCLE, 0) == Ok(Rooms { winning: 1, losing: 4, drawn: 2 }));
    expect!(maze(&UNLESS, 0) == Ok(Rooms { winning: 2, losing: 1, drawn: 0 }) && maze(&UNLESS, 1) == Ok(Rooms { winning: 1, losing: 2, drawn: 0 }));
    expect!(maze(&BLOCK[..33], 2) == Err(refused(1, 28)) && maze(&BLOCK, 2) == Err(refused(11, 0)) && maze(&BLOCK, 1) == Err(refused(26, 0)));
    let told = [
        (Room::Signal(0), 0, Corridor::Visible(Room::Dungeon)),
        (Room::Signal(0), 1, Corridor::Visible(Room::Gate(2, 0))),
        (Room::Signal(0), 2, Corridor::NoMore),
        (Room::Gate(2, 1), 0, Corridor::Visible(Room::Signal(1))),
        (Room::Gate(2, 1), 1, Corridor::Visible(Room::Part(3, 1))),
        (Room::Part(3, 1), 0, Corridor::Visible(Room::Dungeon)),
        (Room::Part(3, 0), 0, Corridor::NoMore),
        (Room::Dungeon, 0, Corridor::NoMore),
        (Room::Signal(3), 0, Corridor::NoRoom),
        (Room::Gate(1, 0), 0, Corridor::NoRoom),
    ];
    for (room, n, wanted) in told {
        expect!(corridor(&CYCLE, 0, room, n) == Ok(wanted));
    }
    expect!(corridor(&UNLESS, 0, Room::Gate(0, 1), 0) == Ok(Corridor::Secret(Room::Signal(0))));
    expect!(corridor(&UNLESS, 1, Room::Signal(0), 0) == Ok(Corridor::Visible(Room::Dungeon)));
    expect!(corridor(&BLOCK, 1, Room::Dungeon, 0) == Err(refused(26, 0)) && corridor(&BLOCK[..33], 0, Room::Dungeon, 0) == Err(refused(1, 28)));
}

/// The names in the order of document 01's table, those of later requests, and what a refusal says of itself.
fn try_names() {
    let names = "BROKEN,KIND,EDITION,LIMIT,SIGNAL,EXIT,SHAPE,LOOP,STATE,CLASH,INPUT,ROOM,NOT CONSTRUCTIVE,INDEX,TEXT,QUESTION,OTHER BLOCK";
    expect!((1..18).filter_map(name_of).collect::<Vec<_>>().join(",") == names);
    expect!((23..27).filter_map(name_of).collect::<Vec<_>>().join(",") == "INTERFACE,WIDE,PAIRS,FORM");
    expect!(name_of(0).is_none() && name_of(27).is_none() && name_of(64).is_none() && name_of(u16::MAX).is_none());
    expect!(refused(1, 28).to_string() == "refused with 1, BROKEN, at offset 28 of the block");
    expect!(refused(9, 0).to_string() == "refused with 9, STATE");
    expect!(refused(15, 24).to_string() == "refused with 15, TEXT, at offset 24 of the text");
    let numbers = [answered(0, 0, 1, 0), Instant::Clash(0, 1), Instant::Refused(refused(12, 0))];
    expect!(numbers.iter().map(Instant::number).eq([0, 10, 12]));
}

fn main() {
    try_check();
    try_shelf();
    try_quota();
    try_withdraw();
    try_fresh();
    try_instant();
    try_refusals();
    try_other_block();
    try_logged();
    try_heard();
    try_heard_logged();
    try_excerpt();
    try_reason();
    try_alike();
    try_double_loops();
    try_convert();
    try_write_text();
    try_read_text();
    try_maze();
    try_names();
    let wrong = WRONG.load(Ordering::Relaxed);
    println!("calls: {} wrong", wrong);
    std::process::exit(i32::from(wrong != 0));
}
