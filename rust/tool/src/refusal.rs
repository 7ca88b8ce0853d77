//! A refusal in words: what its number means in general, what is wrong at its place, the record that stands there, and what to do.

use crate::grown::Grown;
use crate::layout::{edition, two, Header, Kind, BLOCK_MOST, EVERYDAY, HEAD, LOCALS, PATH, PAUSES, RECORD, SIGNALS, STATE, STATEMENTS, TRAPS};
use crate::walk::{counted, grouped, in_words, left, walk, Walk};
use foldheron::{name_of, Refusal};

/// Number and name, as every message has them.
pub fn title(number: u16) -> String {
    match name_of(number) {
        Some(name) => format!("{}, {}", number, name),
        None => number.to_string(),
    }
}

/// What to do about a number.
pub fn advice(number: u16) -> &'static str {
    match number {
        1 | 7 => "fetch the file again; if it stays so, tell the maker the number and the offset",
        2 => "look whether this is the file you mean; if so, tell the maker the number and the offset",
        3 => "ask the maker for the block in edition 1",
        4 => "ask the maker for a smaller block, or for two",
        5 | 6 => "tell the maker the number and the offset: the tool that wrote the file has a fault",
        8 => "the maker puts a pause on every way through the loop's body",
        9 | 10 => "use the state that was saved for this very block, or start afresh",
        17 => "run the block that the state was saved from, or start afresh",
        11 => "compare the wiring table with the block's inputs: foldheron show lists them",
        12 => "lend a longer log, or begin a new one",
        13 => "the remedy is in the block: a pause between the test and the emit, or an input that decides",
        14 => "ask for a lower number: foldheron show has them",
        23 => "compare blocks with the same interface only",
        24 => "there is no way to compare them so: hold the number to the bytes of the file",
        25 => "take a new version number for the new block",
        _ => "see the guide",
    }
}

/// What a number says, of a call whose place is 0 or not in a block.
pub fn meaning(number: u16) -> String {
    match number {
        9 => format!("the {} bytes of the state cannot be a state of this block", STATE),
        10 => "two active pauses of the state cannot be active together in this block".to_string(),
        11 => "an input is given that the block does not have".to_string(),
        12 => format!("fewer than {} bytes are left in the log", RECORD),
        13 => "the rules leave the code unknown: a signal waits for itself, perhaps by way of others".to_string(),
        14 => "there is no statement of that number".to_string(),
        16 => "what is asked about is not so".to_string(),
        17 => "the state names another version, or another statement count, than this block has".to_string(),
        _ => "it was turned down".to_string(),
    }
}

/// What is wrong at the place of a block's refusal, 1 to 8.
pub fn wrong(block: &[u8], refusal: &Refusal) -> String {
    let at = refusal.place;
    let walk = walk(block, at);
    match refusal.number {
        1 => broken(block, at),
        2 => kind(block, at),
        3 => match edition(block) {
            // The converter alone refuses edition 1 so.
            1 => "the header's edition is 1, and only edition 2 is converted".to_string(),
            EVERYDAY => "the header's edition is 2, and only edition 1 is taken here".to_string(),
            other => format!("the header's edition is {}, and there are editions 1 and 2 alone", other),
        },
        4 if is_conversions(block, refusal) => format!("converted, it would have {}", Grown::converted(block).passed().join("; ")),
        4 => limit(block, &walk, at),
        5 => signal(block, &walk, at),
        6 => exit(block, &walk, at),
        7 => shape(block, &walk, at),
        8 => "the loop's body may end in the very instant in which it began, so the loop could go round without end".to_string(),
        _ => meaning(refusal.number),
    }
}

/// Whether it is the conversion that passes a limit, and the block itself passes none.
pub fn is_conversions(block: &[u8], refusal: &Refusal) -> bool {
    let signals = Header::of(block).map_or(0, |header| header.signals());
    *refusal == Refusal { number: 4, place: 0 } && edition(block) == EVERYDAY && block.len() <= BLOCK_MOST && signals <= SIGNALS
}

/// The bytes that stand at the place, and what they say.
pub fn record(block: &[u8], at: usize) -> String {
    if at >= block.len() {
        return format!("nothing: the file ends at {}", block.len());
    }
    let length = two(block, at).map_or(HEAD, usize::from).clamp(HEAD, 14);
    let bytes: Vec<String> = block[at..].iter().take(length).map(|byte| format!("{:02X}", byte)).collect();
    format!("{}: {}", bytes.join(" "), in_words(block, at))
}

fn broken(block: &[u8], at: usize) -> String {
    match two(block, at) {
        Some(length) if block.len() - at >= HEAD && usize::from(length) < HEAD => {
            format!("a record's length is {}, and its head alone has {}", length, HEAD)
        }
        Some(length) if block.len() - at >= HEAD => format!("a record of {} is due, and {} left", counted(length.into(), "byte"), are_left(block, at)),
        _ => format!("a record is due, and {} left: its head alone has {}", are_left(block, at), HEAD),
    }
}

fn are_left(block: &[u8], at: usize) -> String {
    let one = block.len().saturating_sub(at) <= 1;
    format!("{} {}", left(block, at), if one { "is" } else { "are" })
}

fn kind(block: &[u8], at: usize) -> String {
    let (length, number) = (two(block, at).unwrap_or(0), two(block, at + 2).unwrap_or(0));
    if at == 0 {
        return format!("a block begins with its header, length 14 and kind 1; this has length {} and kind {}", length, number);
    }
    match Kind::at(block, at) {
        Some(kind) => format!("the length of {} is {}, not {}", kind.name, kind.length(), length),
        None => format!("{} is no statement's kind in edition {}", number, edition(block)),
    }
}

fn limit(block: &[u8], walk: &Walk, at: usize) -> String {
    if block.len() > BLOCK_MOST {
        return format!("the file has more than {} bytes", grouped(BLOCK_MOST as u64));
    }
    if at == 0 {
        let signals = walk.header.map_or(0, |header| header.signals());
        return format!("{} declared, and {} are the most", are(signals, "signal"), SIGNALS);
    }
    let around = &walk.around;
    let kind = Kind::at(block, at).map_or("", |kind| kind.name);
    let inside = |count: usize, noun: &str, most: usize| format!("{} inside each other, and {} are the most", counted(count as u64, noun), most);
    if walk.statements.len() >= STATEMENTS {
        format!("this is the {}th statement, and {} are the most", walk.statements.len() + 1, STATEMENTS)
    } else if kind == "pause" && around.pauses >= PAUSES {
        format!("this is the {}th pause, and {} are the most", around.pauses + 1, PAUSES)
    } else if kind == "trap" && around.count("trap") >= TRAPS {
        inside(around.count("trap") + 1, "trap", TRAPS)
    } else if kind == "local" && around.count("local") >= LOCALS {
        inside(around.count("local") + 1, "local", LOCALS)
    } else {
        format!("{} statements on the way from the first to this one, and {} are the most", around.above.len() + 1, PATH)
    }
}

fn are(count: usize, noun: &str) -> String {
    format!("{} {}", counted(count as u64, noun), if count == 1 { "is" } else { "are" })
}

fn signal(block: &[u8], walk: &Walk, at: usize) -> String {
    let signal = two(block, at + HEAD).unwrap_or(0);
    let header = match walk.header {
        Some(header) => header,
        None => return meaning(0),
    };
    let kind = Kind::at(block, at).map_or("", |kind| kind.name);
    let next = usize::from(header.inputs) + usize::from(header.outputs) + walk.around.locals;
    if usize::from(signal) >= header.signals() {
        format!("signal {} is not declared: the header has {}, and they are numbered from 0", signal, counted(header.signals() as u64, "signal"))
    } else if kind == "local" {
        format!("a local declares signal {}, and the next one is {}: locals are numbered as they stand in the file", signal, next)
    } else if matches!(kind, "emit" | "sustain") && signal < header.inputs {
        format!("signal {} is an input, and an input cannot be {}", signal, if kind == "emit" { "emitted" } else { "sustained" })
    } else {
        format!("signal {} is a local, and this stands outside of its body", signal)
    }
}

fn exit(block: &[u8], walk: &Walk, at: usize) -> String {
    let depth = two(block, at + HEAD).unwrap_or(0);
    let traps = walk.around.count("trap");
    match traps {
        0 => format!("exit of depth {} stands in no trap", depth),
        _ => format!("exit of depth {} needs {} traps around it, and {} there", depth, u32::from(depth) + 1, are(traps, "trap")),
    }
}

fn shape(block: &[u8], walk: &Walk, at: usize) -> String {
    let locals = walk.header.map_or(0, |header| usize::from(header.locals));
    if !walk.around.above.is_empty() || walk.statements.is_empty() {
        "the file ends, and a statement is still due".to_string()
    } else if at < block.len() {
        format!("the block is whole, and after it the file goes on with {}", left(block, at))
    } else {
        format!("the header declares {}, and the block has {}", counted(locals as u64, "local"), walk.around.locals)
    }
}

/// Whether the record at fault is a statement, which then has a number.
pub fn statement_number(block: &[u8], refusal: &Refusal) -> Option<usize> {
    let walk = walk(block, refusal.place);
    let is_statement = refusal.place > 0 && refusal.place == walk.at && !matches!(refusal.number, 1 | 7);
    Some(walk.statements.len()).filter(|_| is_statement)
}
