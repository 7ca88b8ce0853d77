//! Calls with all that is lent to them, and lines that give the complete answer and every lent byte after.

use crate::alike::alike;
use crate::alikes::{alike_edges, some_alike_case};
use crate::block::{decode, Block, Header};
use crate::chance::Chance;
use crate::convert::convert;
use crate::converts::{convert_edges, some_convert_case};
use crate::double::double_loops;
use crate::doubles::{copies_edges, some_copies_case};
use crate::edge_calls::{edge_calls, EdgeCall};
use crate::edges::edge_blocks;
use crate::family::Family;
use crate::fault::Fault;
use crate::generate::{some_active, some_block, some_inputs, some_phase, Wish};
use crate::heard_cases::{heard_edges, some_heard_case};
use crate::kernel::{read_text, write_text};
use crate::kernels::{some_text_case, some_written_case, text_edges, written_edges};
use crate::maze::maze;
use crate::mazes::{maze_edges, some_maze_case};
use crate::mutate::some_mixed_block;
use crate::reaction::Phase;
use crate::reason::{reason, Asked};
use crate::shelf::{Shelf, TRUE};
use crate::shelf_cases::{shelf_edges, some_shelf_case};
use crate::state::{
    check, excerpt, fresh, instant, instant_heard, instant_heard_with_log, instant_with_log, state_record, Answer, Told,
};
use crate::values::Heard;
use crate::why_cases::{some_why_case, why_edges};

#[derive(Clone, Debug)]
pub enum Call {
    Check,
    Fresh { state: Vec<u8> },
    Instant { state: Vec<u8>, inputs: u64 },
    Logged { state: Vec<u8>, inputs: u64, log: Vec<u8>, end: u64 },
    Heard { state: Vec<u8>, heard: Heard },
    HeardLogged { state: Vec<u8>, heard: Heard, log: Vec<u8>, end: u64 },
    Excerpt { index: u64 },
    Reason { state: Vec<u8>, heard: Heard, asked: Asked },
    Install { shelf: Vec<u8>, party: u16, name: u16 },
    Fetch { shelf: Vec<u8>, party: u16, name: u16 },
    Withdraw { shelf: Vec<u8>, party: u16, name: u16 },
    Maze { inputs: u64 },
    /// The second block, and how many bytes are lent for the run.
    Alike { second: Vec<u8>, room: usize },
    /// How many bytes are lent for the doubled block.
    Copies { room: usize },
    /// How many bytes are lent for the block of edition 1.
    Convert { room: usize },
    /// The block is the text, and so many bytes are lent for the block.
    ReadText { room: usize },
    /// So many bytes are lent for the text.
    WriteText { room: usize },
}

#[derive(Clone, Debug)]
pub struct Case {
    pub block: Vec<u8>,
    pub call: Call,
}

/// Two hex digits a byte; `-` for none.
fn hex(bytes: &[u8]) -> String {
    if bytes.is_empty() {
        return "-".to_string();
    }
    bytes.iter().map(|byte| format!("{byte:02x}")).collect()
}

/// How many bytes of a shelf stand before the zeros at its end.
pub fn standing(shelf: &[u8]) -> usize {
    shelf.iter().rposition(|&byte| byte != 0).map_or(0, |last| last + 1)
}

/// A shelf's bytes up to the last that is not 0, and how many zeros come after it.
fn hex_shelf(shelf: &[u8]) -> String {
    let stands = standing(shelf);
    format!("{}+{:x}", hex(&shelf[..stands]), shelf.len() - stands)
}

/// What is lent for an output holds this byte, with which none ends.
const LENT: u8 = 0xA5;

/// A lent output up to what was written, and how many bytes come after it as they were.
fn hex_lent(lent: &[u8]) -> String {
    let stands = lent.iter().rposition(|&byte| byte != LENT).map_or(0, |last| last + 1);
    format!("{}+{:x}", hex(&lent[..stands]), lent.len() - stands)
}

/// Number, place, pair, present, absent, undecided, code, rounds, active.
fn fields(a: &Answer) -> String {
    format!(
        "{:x} {:x} {:x} {:x} {:x} {:x} {:x} {:x} {:x} {:x}",
        a.number, a.place, a.first, a.second, a.present, a.absent, a.undecided, a.code, a.rounds, a.active
    )
}

impl Case {
    pub fn name(&self) -> &'static str {
        match self.call {
            Call::Check => "check",
            Call::Fresh { .. } => "fresh",
            Call::Instant { .. } => "instant",
            Call::Logged { .. } => "logged",
            Call::Heard { .. } => "heard",
            Call::HeardLogged { .. } => "heardlogged",
            Call::Excerpt { .. } => "excerpt",
            Call::Reason { .. } => "reason",
            Call::Install { .. } => "install",
            Call::Fetch { .. } => "fetch",
            Call::Withdraw { .. } => "withdraw",
            Call::Maze { .. } => "maze",
            Call::Alike { .. } => "alike",
            Call::Copies { .. } => "copies",
            Call::Convert { .. } => "convert",
            Call::ReadText { .. } => "readtext",
            Call::WriteText { .. } => "writetext",
        }
    }

    /// What is lent.
    pub fn given(&self) -> String {
        let (name, block) = (self.name(), hex(&self.block));
        match &self.call {
            Call::Check => format!("{name} {block}"),
            Call::Fresh { state } => format!("{name} {block} {}", hex(state)),
            Call::Instant { state, inputs } => format!("{name} {block} {} {inputs:x}", hex(state)),
            Call::Logged { state, inputs, log, end } => {
                format!("{name} {block} {} {inputs:x} {} {end:x}", hex(state), hex(log))
            }
            Call::Heard { state, heard } => {
                format!("{name} {block} {} {:x} {:x}", hex(state), heard.present, heard.absent)
            }
            Call::HeardLogged { state, heard: Heard { present, absent }, log, end } => {
                format!("{name} {block} {} {present:x} {absent:x} {} {end:x}", hex(state), hex(log))
            }
            Call::Excerpt { index } => format!("{name} {block} {index:x}"),
            Call::Reason { state, heard: Heard { present, absent }, asked } => {
                let (question, about) = asked.numbers();
                format!("{name} {block} {} {present:x} {absent:x} {question:x} {about:x}", hex(state))
            }
            Call::Maze { inputs } => format!("{name} {block} {inputs:x}"),
            Call::Alike { second, room } => format!("{name} {block} {} {room:x}", hex(second)),
            Call::Copies { room } | Call::Convert { room } | Call::ReadText { room } | Call::WriteText { room } => format!("{name} {block} {room:x}"),
            Call::Install { shelf, party, name: own } => {
                format!("{name} {} {party:x} {own:x} {block}", hex_shelf(shelf))
            }
            Call::Fetch { shelf, party, name: own } | Call::Withdraw { shelf, party, name: own } => {
                format!("{name} {} {party:x} {own:x}", hex_shelf(shelf))
            }
        }
    }

    /// What comes back, with every lent byte that could be written.
    pub fn answer(&self, fault: Fault) -> String {
        match &self.call {
            Call::Check => {
                let a = check(&self.block, fault);
                let [version, inputs, outputs, locals, statements, pauses] = a.summary;
                let counts = format!("{inputs:x} {outputs:x} {locals:x} {statements:x} {pauses:x}");
                format!("{:x} {:x} {version:x} {counts}", a.number, a.place)
            }
            Call::Fresh { state } => {
                let mut state = state.clone();
                let a = fresh(&self.block, &mut state, fault);
                format!("{:x} {:x} {}", a.number, a.place, hex(&state))
            }
            Call::Instant { state, inputs } => self.ran(state, Told::One(*inputs), fault),
            Call::Logged { state, inputs, log, end } => self.ran_logged(state, Told::One(*inputs), log, *end, fault),
            Call::Heard { state, heard } => self.ran(state, Told::Two(*heard), fault),
            Call::HeardLogged { state, heard, log, end } => {
                self.ran_logged(state, Told::Two(*heard), log, *end, fault)
            }
            Call::Excerpt { index } => {
                let (a, part) = excerpt(&self.block, *index, fault);
                let whole = self.block.as_ptr() as usize;
                let from = if part.is_empty() { 0 } else { part.as_ptr() as usize - whole };
                format!("{:x} {:x} {from:x} {}", a.number, a.place, hex(part))
            }
            Call::Reason { state, heard, asked } => {
                let a = reason(&self.block, state, *heard, *asked, fault);
                format!("{:x} {:x} {:x} {:x} {:x}", a.number, a.place, a.first, a.second, a.statement)
            }
            Call::Maze { inputs } => {
                let (a, [wins, loses, draws]) = maze(&self.block, *inputs, fault);
                format!("{:x} {:x} {wins:x} {loses:x} {draws:x}", a.number, a.place)
            }
            Call::Alike { second, room } => {
                let mut run = vec![LENT; *room];
                let a = alike(&self.block, second, &mut run, fault);
                format!("{:x} {:x} {:x} {:x} {}", a.number, a.place, a.second as u8, a.length, hex_lent(&run))
            }
            Call::Copies { room } | Call::Convert { room } | Call::ReadText { room } | Call::WriteText { room } => {
                let mut out = vec![LENT; *room];
                let (a, size) = match self.call {
                    Call::Copies { .. } => double_loops(&self.block, &mut out, fault),
                    Call::Convert { .. } => convert(&self.block, &mut out, fault),
                    Call::ReadText { .. } => read_text(&self.block, &mut out, fault),
                    _ => write_text(&self.block, &mut out, fault),
                };
                format!("{:x} {:x} {size:x} {}", a.number, a.place, hex_lent(&out))
            }
            Call::Install { .. } | Call::Fetch { .. } | Call::Withdraw { .. } => self.on_shelf(fault),
        }
    }

    /// What a call on a shelf gives back, and the shelf after one that writes.
    fn on_shelf(&self, fault: Fault) -> String {
        let rules = Shelf { sizes: TRUE, fault };
        match &self.call {
            Call::Install { shelf, party, name } => {
                let mut shelf = shelf.clone();
                let a = rules.install(&mut shelf, *party, *name, &self.block);
                format!("{:x} {:x} {}", a.number, a.place, hex_shelf(&shelf))
            }
            Call::Fetch { shelf, party, name } => {
                let (a, part) = rules.fetch(shelf, *party, *name);
                format!("{:x} {:x} {}", a.number, a.place, hex(part))
            }
            Call::Withdraw { shelf, party, name } => {
                let mut shelf = shelf.clone();
                let a = rules.withdraw(&mut shelf, *party, *name);
                format!("{:x} {:x} {}", a.number, a.place, hex_shelf(&shelf))
            }
            _ => String::new(),
        }
    }

    /// The bytes of the lent shelf that stand before its zeros, or of the second block.
    pub fn shelf(&self) -> &[u8] {
        match &self.call {
            Call::Install { shelf, .. } | Call::Fetch { shelf, .. } | Call::Withdraw { shelf, .. } => {
                &shelf[..standing(shelf)]
            }
            Call::Alike { second, .. } => second,
            _ => &[],
        }
    }

    /// What an instant gives back, and the state after it.
    fn ran(&self, state: &[u8], told: Told, fault: Fault) -> String {
        let mut state = state.to_vec();
        let a = match told {
            Told::One(inputs) => instant(&self.block, &mut state, inputs, fault),
            Told::Two(_) => instant_heard(&self.block, &mut state, told, fault),
        };
        format!("{} {}", fields(&a), hex(&state))
    }

    /// The same of one with a log, the new end, and the log after it.
    fn ran_logged(&self, state: &[u8], told: Told, log: &[u8], end: u64, fault: Fault) -> String {
        let (mut state, mut log) = (state.to_vec(), log.to_vec());
        let a = match told {
            Told::One(inputs) => instant_with_log(&self.block, &mut state, inputs, &mut log, end, fault),
            Told::Two(_) => instant_heard_with_log(&self.block, &mut state, told, &mut log, end, fault),
        };
        format!("{} {:x} {} {}", fields(&a), a.end, hex(&state), hex(&log))
    }

    pub fn line(&self) -> String {
        format!("{} = {}", self.given(), self.answer(Fault::None))
    }
}

/// So many cases of a family: all edges first, then random ones, an equal share from each seed.
pub fn cases(family: Family, count: usize, seeds: &[u64]) -> Vec<Case> {
    let share = count / seeds.len() + 1;
    let random = seeds.iter().flat_map(|&seed| {
        let mut chance = Chance::new(seed);
        (0..share).map(move |_| match family {
            Family::Base => some_case(&mut chance),
            Family::Heard => some_heard_case(&mut chance),
            Family::Why => some_why_case(&mut chance),
            Family::Shelf => some_shelf_case(&mut chance),
            Family::Maze => some_maze_case(&mut chance),
            Family::Alike => some_alike_case(&mut chance),
            Family::Copies => some_copies_case(&mut chance),
            Family::Written => some_written_case(&mut chance),
            Family::Text => some_text_case(&mut chance),
            Family::Convert => some_convert_case(&mut chance),
        })
    });
    edge_cases(family).into_iter().chain(random).take(count).collect()
}

/// Every refusal at its boundary.
pub fn edge_cases(family: Family) -> Vec<Case> {
    let blocks = edge_blocks().into_iter().map(|edge| Case { block: edge.bytes, call: Call::Check });
    let blocks = blocks.filter(|_| family == Family::Base);
    blocks.chain(family_edges(family).into_iter().map(|edge| edge.0)).collect()
}

/// The calls at the boundaries of a family, with the first words of their answers.
pub fn family_edges(family: Family) -> Vec<EdgeCall> {
    match family {
        Family::Base => edge_calls(),
        Family::Heard => heard_edges(),
        Family::Why => why_edges(),
        Family::Shelf => shelf_edges(),
        Family::Maze => maze_edges(),
        Family::Alike => alike_edges(),
        Family::Copies => copies_edges(),
        Family::Written => written_edges(),
        Family::Text => text_edges(),
        Family::Convert => convert_edges(),
    }
}

/// A random call on a good, a changed or an edge block.
pub fn some_case(chance: &mut Chance) -> Case {
    let (mut bytes, block) = match chance.weighed(&[45, 38, 5, 6, 6]) {
        0 => some_mixed_block(chance, 1, 20),
        1 => {
            let wish = Wish::some(chance, 5, 60);
            some_block(chance, wish)
        }
        2 => {
            let wish = Wish { inputs: chance.below(20) as u16, outputs: 20, ..Wish::some(chance, 60, 480) };
            some_block(chance, wish)
        }
        3 => {
            let wish = Wish::wide(chance);
            some_block(chance, wish)
        }
        _ => some_edge_block(chance),
    };
    let block = with_version(&mut bytes, block, chance);
    let call = some_call(&block, chance);
    if !bytes.is_empty() && chance.percent(12) {
        spoil(&mut bytes, chance);
    }
    Case { block: bytes, call }
}

/// Another version in the header, three times in four; a header cut short keeps its own.
pub fn with_version(bytes: &mut [u8], block: Block, chance: &mut Chance) -> Block {
    let any = chance.number() as u16;
    let version = chance.pick(&[0, 1, 2, 7, 255, 256, 65535, any]);
    if bytes.len() < 8 || chance.percent(25) {
        return block;
    }
    bytes[6..8].copy_from_slice(&version.to_le_bytes());
    Block { header: Header { version, ..block.header }, ..block }
}

/// A block at a boundary; where it is refused, a small block stands in for what else is lent.
pub fn some_edge_block(chance: &mut Chance) -> (Vec<u8>, Block) {
    let mut edges = edge_blocks();
    let bytes = edges.swap_remove(chance.below(edges.len())).bytes;
    let block = decode(&bytes, Fault::None).unwrap_or_else(|_| some_mixed_block(chance, 1, 20).1);
    (bytes, block)
}

fn some_call(block: &Block, chance: &mut Chance) -> Call {
    match chance.weighed(&[2, 1, 12, 4, 2]) {
        0 => Call::Check,
        1 => Call::Fresh { state: some_bytes(chance.pick(&[26, 26, 26, 25, 27, 22, 0]), chance) },
        2 => Call::Instant { state: some_state(block, chance), inputs: maybe_bad_inputs(block, chance) },
        3 => {
            let (log, end) = some_log(chance);
            let (state, inputs) = (some_state(block, chance), maybe_bad_inputs(block, chance));
            Call::Logged { state, inputs, log, end }
        }
        _ => Call::Excerpt { index: chance.below(block.statements + 2) as u64 },
    }
}

/// A log and its present end: mostly with room, else near it or far away.
pub fn some_log(chance: &mut Chance) -> (Vec<u8>, u64) {
    let size = chance.pick(&[0, 32, 32, 32, 32]) + chance.below(60);
    let last = (size as u64).saturating_sub(32);
    let free = chance.below(size + 1) as u64;
    let whole = size as u64;
    let near = [last, last, last, last / 2, last / 3, 0, last + 1, free, whole, whole + 1, u64::MAX];
    let end = chance.pick(&near);
    (some_bytes(size, chance), end)
}

fn some_bytes(count: usize, chance: &mut Chance) -> Vec<u8> {
    (0..count).map(|_| chance.number() as u8).collect()
}

/// Legal inputs, but now and then with a bit too many.
fn maybe_bad_inputs(block: &Block, chance: &mut Chance) -> u64 {
    let good = some_inputs(block, chance);
    match (block.header.inputs, chance.below(32)) {
        (count, 0) if count < 64 => good | 1 << count,
        (_, 1) => good | 1 << 63,
        _ => good,
    }
}

/// A state record: mostly legal, else clashing or spoilt.
pub fn some_state(block: &Block, chance: &mut Chance) -> Vec<u8> {
    let mut state = state_record(block, some_phase(block, chance));
    match chance.below(44) {
        0 | 1 => {
            let some = (chance.number() as u128) << 64 | chance.number() as u128;
            state = state_record(block, Phase::Running(some & block.root.pauses));
        }
        2 => state[chance.pick(&[0, 1, 2, 3, 8, 9])] ^= 1 << chance.below(8),
        3 => state[10 + chance.below(16)] ^= 1 << chance.below(8),
        4 => state.truncate(chance.below(26)),
        5 => state.push(0),
        6 => state[8] = chance.below(4) as u8,
        7 => {
            let active = some_active(&block.root, chance) | 1u128.checked_shl(block.pauses as u32).unwrap_or(0);
            state = state_record(block, Phase::Running(active));
        }
        // Running pauses of this block, or of any, under another block's version or count.
        8 | 9 => state[4 + chance.below(4)] ^= 1 << chance.below(8),
        10 => {
            state = state_record(block, Phase::Running(chance.number() as u128 & block.root.pauses));
            state[4 + chance.below(4)] ^= 1 << chance.below(8);
        }
        11 => {
            let active = chance.number() as u128;
            state = state_record(block, Phase::Running(active));
            state[4 + chance.below(4)] ^= 1 << chance.below(8);
        }
        _ => {}
    }
    state
}

/// Bytes flipped, cut, appended, a word set to something near, or pauses turned to nothing.
pub fn spoil(bytes: &mut Vec<u8>, chance: &mut Chance) {
    let at = chance.below(bytes.len());
    match chance.below(7) {
        0 => bytes[at] ^= 1 << chance.below(8),
        1 => bytes.truncate(at),
        2 => bytes.extend(some_bytes(1 + chance.below(7), chance)),
        3 => bytes[at & !1] = chance.below(28) as u8,
        4 => bytes[at & !1] = bytes[at & !1].wrapping_add(1),
        5 => (14..bytes.len()).filter(|at| at % 2 == 0).for_each(|at| {
            if bytes[at..].starts_with(&[4, 0, 17, 0]) {
                bytes[at + 2] = 16;
            }
        }),
        _ => {
            let again = bytes[at & !1..].to_vec();
            bytes.extend(again);
        }
    }
}

/// Prints the lines of the cases.
pub fn print_cases(cases: &[Case]) -> bool {
    cases.iter().for_each(|case| println!("{}", case.line()));
    true
}
