//! Cases as bytes, for a program that answers them, and the lines that it is held to.

use std::convert::TryInto;
use std::fs;
use std::io::{self, Write};

use crate::block::decode;
use crate::cases::{cases, standing, Call, Case};
use crate::family::Family;
use crate::fault::Fault;
use crate::reason::Asked;
use crate::text::write_statement;
use crate::values::Heard;

/// Without other words: the family's number of cases, from these seeds. The gate compares these, and shows the faults by these.
pub const SEEDS: [u64; 4] = [1, 2, 3, 4];

/// The head of the calls of the statement, and of those that came later.
const HEAD: usize = 24;
const LONG_HEAD: usize = 40;

/// The cases that words name: `[FAMILY] [N SEED..]`, or a file of calls.
pub fn named(words: &[String]) -> Result<Vec<Case>, String> {
    let family = words.first().and_then(|word| Family::named(word));
    let words = if family.is_some() { &words[1..] } else { words };
    let family = family.unwrap_or(Family::Base);
    let numbers: Result<Vec<u64>, _> = words.iter().map(|word| word.parse::<u64>()).collect();
    match (words, numbers) {
        ([], _) => Ok(cases(family, family.count(), &SEEDS)),
        (_, Ok(numbers)) if numbers.len() == 1 => Ok(cases(family, numbers[0] as usize, &SEEDS)),
        (_, Ok(numbers)) => Ok(cases(family, numbers[0] as usize, &numbers[1..])),
        ([file], _) => read(&fs::read(file).map_err(|error| format!("{file}: {error}"))?),
        _ => Err("cases are named by a count and seeds, or by one file of calls".to_string()),
    }
}

/// A case as bytes: its head, the block, the state, the log, the shelf or the second block.
pub fn bytes(case: &Case) -> Vec<u8> {
    let none: &[u8] = &[];
    // A shelf is lent whole, but the zeros at its end are only counted.
    let on_shelf = |kind: u8, shelf: &[u8], party: u16, name: u16| {
        (kind, none, none, vec![party as u64, name as u64, shelf.len() as u64, standing(shelf) as u64])
    };
    let (kind, state, log, numbers) = match &case.call {
        Call::Check => (1, none, none, vec![0, 0]),
        Call::Fresh { state } => (2, &state[..], none, vec![0, 0]),
        Call::Instant { state, inputs } => (3, &state[..], none, vec![*inputs, 0]),
        Call::Logged { state, inputs, log, end } => (4, &state[..], &log[..], vec![*inputs, *end]),
        Call::Excerpt { index } => (5, none, none, vec![0, *index]),
        Call::Heard { state, heard } => (6, &state[..], none, vec![heard.present, 0, heard.absent, 0]),
        Call::HeardLogged { state, heard, log, end } => {
            (7, &state[..], &log[..], vec![heard.present, *end, heard.absent, 0])
        }
        Call::Reason { state, heard, asked } => {
            let (question, about) = asked.numbers();
            (8, &state[..], none, vec![heard.present, about, heard.absent, question])
        }
        Call::Install { shelf, party, name } => on_shelf(9, shelf, *party, *name),
        Call::Fetch { shelf, party, name } => on_shelf(10, shelf, *party, *name),
        Call::Withdraw { shelf, party, name } => on_shelf(11, shelf, *party, *name),
        Call::Maze { inputs } => (12, none, none, vec![*inputs, 0, 0, 0]),
        Call::ReadText { room } => (15, none, none, vec![0, *room as u64, 0, 0]),
        Call::WriteText { room } => (16, none, none, vec![0, *room as u64, 0, 0]),
        Call::Convert { room } => (17, none, none, vec![0, *room as u64, 0, 0]),
        Call::Copies { room } => (14, none, none, vec![0, *room as u64, 0, 0]),
        Call::Alike { second, room } => (13, none, none, vec![0, *room as u64, second.len() as u64, second.len() as u64]),
    };
    let mut all = vec![kind, state.len() as u8];
    all.extend((log.len() as u16).to_le_bytes());
    all.extend((case.block.len() as u32).to_le_bytes());
    numbers.iter().for_each(|&number| all.extend(u64::to_le_bytes(number)));
    [&all[..], &case.block[..], state, log, case.shelf()].concat()
}

/// Reads cases back.
pub fn read(bytes: &[u8]) -> Result<Vec<Case>, String> {
    let mut cases = Vec::new();
    let mut rest = bytes;
    while !rest.is_empty() {
        let (case, after) = first(rest).ok_or_else(|| format!("the calls end within case {}", cases.len() + 1))?;
        cases.push(case);
        rest = after;
    }
    Ok(cases)
}

/// The first case and what comes after it.
fn first(bytes: &[u8]) -> Option<(Case, &[u8])> {
    let size = if *bytes.first()? < 6 { HEAD } else { LONG_HEAD };
    let head = bytes.get(..size)?;
    let number = |at: usize| {
        let eight = head.get(8 + 8 * at..16 + 8 * at).map(|bytes| bytes.try_into().expect("eight bytes"));
        eight.map_or(0, u64::from_le_bytes)
    };
    let (inputs, other) = (number(0), number(1));
    let heard = Heard { present: inputs, absent: number(2) };
    let log_size = u16::from_le_bytes([head[2], head[3]]) as usize;
    let block_size = u32::from_le_bytes([head[4], head[5], head[6], head[7]]) as usize;
    let state_at = size + block_size;
    let log_at = state_at + head[1] as usize;
    let (shelf_size, stands) = if (9..12).contains(&head[0]) || head[0] == 13 { (number(2) as usize, number(3) as usize) } else { (0, 0) };
    let end = log_at + log_size + stands;
    let block = bytes.get(size..state_at)?.to_vec();
    let state = bytes.get(state_at..log_at)?.to_vec();
    let log = bytes.get(log_at..log_at + log_size)?.to_vec();
    let mut shelf = bytes.get(log_at + log_size..end)?.to_vec();
    shelf.resize(shelf_size, 0);
    let call = match head[0] {
        1 => Call::Check,
        2 => Call::Fresh { state },
        3 => Call::Instant { state, inputs },
        4 => Call::Logged { state, inputs, log, end: other },
        5 => Call::Excerpt { index: other },
        6 => Call::Heard { state, heard },
        7 => Call::HeardLogged { state, heard, log, end: other },
        8 => Call::Reason { state, heard, asked: Asked::of_numbers(number(3), other)? },
        9 => Call::Install { shelf, party: inputs as u16, name: other as u16 },
        10 => Call::Fetch { shelf, party: inputs as u16, name: other as u16 },
        11 => Call::Withdraw { shelf, party: inputs as u16, name: other as u16 },
        12 => Call::Maze { inputs },
        15 => Call::ReadText { room: other as usize },
        16 => Call::WriteText { room: other as usize },
        17 => Call::Convert { room: other as usize },
        14 => Call::Copies { room: other as usize },
        13 => Call::Alike { second: shelf, room: other as usize },
        _ => return None,
    };
    Some((Case { block, call }, &bytes[end..]))
}

/// The line that a program is to print for a case: its answer, but for an excerpt's offset, which the part does not show.
pub fn told(case: &Case, fault: Fault) -> String {
    let answer = case.answer(fault);
    let words: Vec<&str> = answer.split(' ').collect();
    match case.call {
        Call::Excerpt { .. } => format!("{} {} {} {}", case.name(), words[0], words[1], words[3]),
        _ => format!("{} {answer}", case.name()),
    }
}

/// Prints all of a case: what is lent, what comes back, and a good block as a statement.
pub fn show(case: &Case) -> bool {
    println!("{}", case.line());
    if let Ok(block) = decode(&case.block, Fault::None) {
        let header = block.header;
        let signals = format!("{} inputs, {} outputs, {} locals", header.inputs, header.outputs, header.locals);
        println!("{signals}: {}", write_statement(&block.root.tokens()));
    }
    true
}

/// Writes the cases as bytes to standard output.
pub fn write(cases: &[Case]) -> bool {
    let all: Vec<u8> = cases.iter().flat_map(bytes).collect();
    io::stdout().write_all(&all).is_ok()
}

/// Prints what a program is to print for the cases.
pub fn print_answers(cases: &[Case]) -> bool {
    let lines: String = cases.iter().map(|case| told(case, Fault::None) + "\n").collect();
    io::stdout().write_all(lines.as_bytes()).is_ok()
}
