//! The likely cause of a refused block, and what to do about it. Where something can be tried it is tried: a file whose pairs of bytes are turned
//! round and that is then good was written high byte first.

use crate::everyday::{is_good, summary};
use crate::layout::{begins_entry, begins_log_record, begins_state, edition, eight, two, Header, Kind, BLOCK_MOST, EVERYDAY, HEAD, HEADER, RECORD, SET};
use crate::refusal::{is_conversions, title};
use crate::walk::counted;
use foldheron::Refusal;

pub struct Cause {
    pub what: String,
    pub advice: String,
}

fn cause(what: impl Into<String>, advice: impl Into<String>) -> Option<Cause> {
    Some(Cause { what: what.into(), advice: advice.into() })
}

/// The first that fits.
pub fn likely(block: &[u8], refusal: &Refusal) -> Option<Cause> {
    if !matches!(refusal.number, 1..=8) {
        return None;
    }
    let tries: [fn(&[u8], &Refusal) -> Option<Cause>; 12] =
        [empty, other_edition, unsaid_edition, too_large, text, packed, other_record, turned, line_ends, goes_on, input_sets, cut_off];
    tries.iter().find_map(|attempt| attempt(block, refusal))
}

/// The likely cause of refused or short input sets, by the first bytes of their file.
pub fn likely_inputs(bytes: &[u8], inputs: usize) -> Option<Cause> {
    if Header::of(bytes).is_some() {
        return cause("this is a block, not input sets", "name the file of the input sets");
    }
    if !bytes.is_empty() && is_text(bytes) {
        return cause("this is text, and an input set is 8 bytes", "write the sets as bytes, or say them in words with --in");
    }
    let sets: Vec<u64> = bytes.chunks_exact(SET).filter_map(|set| eight(set, 0)).collect();
    let is_declared = |set: &u64| inputs >= 64 || set >> inputs == 0;
    let is_turned = sets.iter().all(|set| is_declared(&set.swap_bytes())) && !sets.iter().all(is_declared);
    if is_turned {
        return cause("the sets are written high byte first", "write them low byte first (little-endian)");
    }
    None
}

fn empty(block: &[u8], _: &Refusal) -> Option<Cause> {
    if !block.is_empty() {
        return None;
    }
    cause("the file is empty", "fetch it again; look whether the disk was full when it was written")
}

/// A block of the edition that is not taken: what it is as one of its own.
fn other_edition(block: &[u8], refusal: &Refusal) -> Option<Cause> {
    if refusal.number != 3 {
        return None;
    }
    match (edition(block), summary(block)) {
        (1, Ok(_)) => cause("it is in edition 1 already, and good", "use it as it is: there is nothing to convert"),
        (EVERYDAY, Ok(_)) => cause("edition 2 has halt, sustain, await and abort; as such a block it is good", "foldheron convert writes it in edition 1: take what that writes"),
        (number @ (1 | EVERYDAY), Err(why)) => {
            let what = format!("it is a block of edition {}, and refused as such with {}, at offset {}", number, title(why.number), why.place);
            cause(what, "foldheron check says what is wrong there")
        }
        _ => None,
    }
}

/// One of the four of edition 2 in a block whose header says edition 1.
fn unsaid_edition(block: &[u8], refusal: &Refusal) -> Option<Cause> {
    if refusal.number != 2 || refusal.place == 0 || edition(block) != 1 || Kind::at(block, refusal.place).is_some() {
        return None;
    }
    let kind = Kind::of(two(block, refusal.place + 2)?, EVERYDAY)?;
    let mut other = block.to_vec();
    other[HEAD] = EVERYDAY as u8;
    let good = if is_good(&other) { "; with edition 2 there the block is good" } else { "" };
    cause(format!("this is {} of edition 2, and the header says edition 1{}", kind.name, good), "ask the maker for the edition that the header should say")
}

fn too_large(block: &[u8], refusal: &Refusal) -> Option<Cause> {
    if !is_conversions(block, refusal) {
        return None;
    }
    cause("each of halt, sustain, await and abort is written as several statements", "ask the maker for fewer of them, for aborts less deep inside each other, or for two blocks")
}

fn is_text(block: &[u8]) -> bool {
    let text = std::str::from_utf8(block).or_else(|why| std::str::from_utf8(&block[..why.valid_up_to()]));
    let whole = text.map_or(0, str::len) + 3 >= block.len();
    whole && block.iter().all(|byte| *byte >= b' ' || matches!(byte, b'\t' | b'\n' | b'\r'))
}

fn text(block: &[u8], _: &Refusal) -> Option<Cause> {
    if block.starts_with(&[0xFF, 0xFE]) || block.starts_with(&[0xFE, 0xFF]) {
        return cause("this is text (UTF-16), and a block is bytes", "ask for the file of bytes");
    }
    if !is_text(block) {
        return None;
    }
    if let Some(bytes) = from_hex(block) {
        let good = if is_good(&bytes) { "; read as such they are a good block" } else { "" };
        return cause(format!("these are bytes written as text in base 16{}", good), "turn them into bytes, as: xxd -r -p FILE > block.bin");
    }
    let words = String::from_utf8_lossy(block);
    if is_program(&words) {
        return cause("this is a program's text, and a block is bytes", "if it writes a block, run it, and name the file that it writes");
    }
    let esterel = ["present ", "emit ", "pause", "loop", "await "].iter().filter(|word| words.contains(**word)).count() >= 2;
    if esterel {
        return cause("this may be a block's text, and a block is bytes", "foldheron build makes the block from it, or says where it is at fault");
    }
    cause("this is text, and a block is bytes", "look what it says: a page or a message may have been saved in the file's place")
}

/// Whether a line begins as one of a script, of Python, C or Rust does, and as none of a block's text.
fn is_program(text: &str) -> bool {
    text.starts_with("#!") || text.lines().any(|line| ["import ", "def ", "#include", "fn ", "pub fn "].iter().any(|head| line.starts_with(head)))
}

/// The bytes that digits in base 16 stand for, with spaces, line ends and what often parts them left out.
fn from_hex(text: &[u8]) -> Option<Vec<u8>> {
    let digits: Vec<u8> = text.iter().copied().filter(|byte| !matches!(byte, b' ' | b'\n' | b'\r' | b'\t' | b',' | b'/' | b':')).collect();
    let value = |digit: u8| (digit as char).to_digit(16);
    if digits.len() < 8 || digits.len() % 2 != 0 {
        return None;
    }
    digits.chunks_exact(2).map(|pair| Some((value(pair[0])? * 16 + value(pair[1])?) as u8)).collect()
}

fn packed(block: &[u8], _: &Refusal) -> Option<Cause> {
    let heads: [(&[u8], &str); 4] = [(&[0x1F, 0x8B], "gzip"), (b"PK\x03\x04", "zip"), (&[0xFD, b'7', b'z'], "xz"), (&[0x28, 0xB5, 0x2F, 0xFD], "zstd")];
    let (_, name) = heads.iter().find(|(head, _)| block.starts_with(head))?;
    cause(format!("the file is packed ({})", name), "unpack it first")
}

fn other_record(block: &[u8], _: &Refusal) -> Option<Cause> {
    if begins_state(block, block.len() as u64) {
        return cause("this is a saved state, not a block", "foldheron state shows it; name the block's file here");
    }
    if begins_log_record(block) {
        return cause("this is a log, not a block", "foldheron log shows it; name the block's file here");
    }
    if begins_entry(block) {
        return cause("this is a shelf, not a block", "foldheron shelf fetches a block from it; name the block's file here");
    }
    None
}

fn turned(block: &[u8], _: &Refusal) -> Option<Cause> {
    let turned: Vec<u8> = block.chunks(2).flat_map(|pair| pair.iter().rev().copied()).collect();
    if two(&turned, 0) != Some(HEADER as u16) || two(&turned, 2) != Some(1) {
        return None;
    }
    let good = if is_good(&turned) { "; with each pair of bytes turned round the block is good" } else { "" };
    cause(format!("the numbers are written high byte first{}", good), "ask the maker to write them low byte first (little-endian)")
}

fn line_ends(block: &[u8], _: &Refusal) -> Option<Cause> {
    let mut mended = Vec::new();
    for (at, byte) in block.iter().enumerate() {
        if !(*byte == b'\r' && block.get(at + 1) == Some(&b'\n')) {
            mended.push(*byte);
        }
    }
    if mended.len() == block.len() || !is_good(&mended) {
        return None;
    }
    cause("the transfer took the file for text and changed line ends; undone, the block is good", "fetch it again as bytes (binary mode)")
}

fn goes_on(block: &[u8], refusal: &Refusal) -> Option<Cause> {
    let rest = block.get(refusal.place..)?;
    if refusal.number != 7 || rest.is_empty() || !is_good(&block[..refusal.place]) {
        return None;
    }
    let added = if rest.iter().all(|byte| matches!(byte, b'\n' | b'\r')) {
        "an editor or a transfer put a line's end behind it"
    } else if rest.iter().all(|byte| *byte == 0) {
        "it was filled up with zeros"
    } else {
        "something was put behind it, perhaps a second file"
    };
    cause(added, format!("fetch it again; without {} at its end the block is good", counted(rest.len() as u64, "byte")))
}

/// Input sets that stand where the block should: whole sets, and few enough inputs that the upper bytes of each are 0.
fn input_sets(block: &[u8], refusal: &Refusal) -> Option<Cause> {
    let whole = block.len() % SET == 0 && refusal.place == 0 && block.len() <= BLOCK_MOST;
    if !whole || !block.chunks_exact(SET).all(|set| set[4..].iter().all(|byte| *byte == 0)) {
        return None;
    }
    let sets = counted((block.len() / SET) as u64, "input set");
    cause(format!("this looks like {}, not like a block", sets), "look whether the block and the inputs are swapped")
}

fn cut_off(block: &[u8], refusal: &Refusal) -> Option<Cause> {
    let at = refusal.place;
    let runs_out = match refusal.number {
        1 => at + 4 > block.len() || two(block, at).map_or(true, |length| usize::from(length) <= RECORD && at + usize::from(length) > block.len()),
        7 => at == block.len() && crate::refusal::wrong(block, refusal).contains("still due"),
        _ => false,
    };
    if !runs_out {
        return None;
    }
    cause("the file was cut off in transfer or when it was written", "fetch it again and compare its size with the maker's")
}

#[cfg(test)]
mod tests {
    use super::*;

    #[test]
    fn digits_in_base_16() {
        assert_eq!(from_hex(b"0E 00 01 00 / ff"), Some(vec![14, 0, 1, 0, 255]));
        assert_eq!(from_hex(b"0E 00 01 0"), None);
        assert_eq!(from_hex(b"present O"), None);
    }

    #[test]
    fn inputs() {
        let what = |bytes: &[u8], inputs| likely_inputs(bytes, inputs).map(|cause| cause.what);
        assert_eq!(what(&[0, 0, 0, 0, 0, 0, 0, 1], 1).unwrap(), "the sets are written high byte first");
        assert_eq!(what(&[2, 0, 0, 0, 0, 0, 0, 0], 1), None);
        assert_eq!(what(&[1, 0, 0, 0, 0, 0, 0, 0], 1), None);
        assert_eq!(what(&[0xFF; 16], 64), None);
        assert_eq!(what(b"1\n1\n0\n", 1).unwrap(), "this is text, and an input set is 8 bytes");
        assert!(what(&[14, 0, 1, 0, 1, 0, 7, 0, 1, 0, 1, 0, 0, 0], 1).unwrap().starts_with("this is a block"));
    }

    #[test]
    fn texts() {
        assert!(is_program("import struct\nloop = 22\n") && is_program("#!/bin/sh\n") && !is_program("loop\n  emit O; pause\nend\n"));
        assert!(is_text("emit O; größer\r\n".as_bytes()) && !is_text(&[14, 0, 1, 0]) && !is_text(&[0xFF, b'a', b'a', b'a', b'a']));
    }
}
