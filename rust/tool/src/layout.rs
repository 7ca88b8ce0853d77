//! The bytes of a block, a state, a log record and a shelf: every length, offset and kind stands here and nowhere else in the program.

pub use foldheron::{BLOCK_MOST, RECORD, STATE};
pub use foldheron::{HELD_MOST, SHELF};

/// A state of the versions before 2.0.0, which does not name its block.
pub const OLD_STATE: usize = 22;
/// A log record of the versions before 2.0.0, which has no set of absent inputs.
pub const OLD_RECORD: usize = 24;
/// A record's head: its length and its kind.
pub const HEAD: usize = 4;
/// The header of a block.
pub const HEADER: usize = 14;
pub const HEADER_KIND: u16 = 1;
pub const STATE_KIND: u16 = 2;
pub const LOG_KIND: u16 = 3;
pub const ENTRY_KIND: u16 = 5;
/// What an entry of a shelf has before its block: a head, the party, the name.
pub const ENTRY: usize = HEAD + 4;
/// An input set.
pub const SET: usize = 8;

pub const SIGNALS: usize = 64;
pub const STATEMENTS: usize = 512;
pub const PAUSES: usize = 128;
pub const TRAPS: usize = 16;
pub const LOCALS: usize = 6;
pub const PATH: usize = 64;

/// Two bytes at an offset, the lowest first.
pub fn two(bytes: &[u8], at: usize) -> Option<u16> {
    let low = *bytes.get(at)?;
    let high = *bytes.get(at + 1)?;
    Some(u16::from_le_bytes([low, high]))
}

/// Eight bytes at an offset, the lowest first.
pub fn eight(bytes: &[u8], at: usize) -> Option<u64> {
    let mut word = [0; 8];
    word.copy_from_slice(bytes.get(at..at + 8)?);
    Some(u64::from_le_bytes(word))
}

#[derive(Clone, Copy, PartialEq, Eq, Debug)]
pub enum Operand {
    None,
    Signal,
    Depth,
}

/// A kind of statement, and what its children are to it.
#[derive(PartialEq, Eq, Debug)]
pub struct Kind {
    pub number: u16,
    pub name: &'static str,
    pub operand: Operand,
    pub parts: &'static [&'static str],
}

const fn kind(number: u16, name: &'static str, operand: Operand, parts: &'static [&'static str]) -> Kind {
    Kind { number, name, operand, parts }
}

pub static KINDS: [Kind; 11] = [
    kind(16, "nothing", Operand::None, &[]),
    kind(17, "pause", Operand::None, &[]),
    kind(18, "emit", Operand::Signal, &[]),
    kind(19, "present", Operand::Signal, &["then", "else"]),
    kind(20, "suspend", Operand::Signal, &[""]),
    kind(21, "sequence", Operand::None, &["", ""]),
    kind(22, "loop", Operand::None, &[""]),
    kind(23, "parallel", Operand::None, &["", ""]),
    kind(24, "trap", Operand::None, &[""]),
    kind(25, "exit", Operand::Depth, &[]),
    kind(26, "local", Operand::Signal, &[""]),
];

/// The edition that has four kinds more, and that is converted before it runs.
pub const EVERYDAY: u16 = 2;

/// Those four.
static EVERYDAY_KINDS: [Kind; 4] = [
    kind(32, "halt", Operand::None, &[]),
    kind(33, "sustain", Operand::Signal, &[]),
    kind(34, "await", Operand::Signal, &[]),
    kind(35, "abort", Operand::Signal, &[""]),
];

impl Kind {
    /// The kind of a number in an edition.
    pub fn of(number: u16, edition: u16) -> Option<&'static Kind> {
        let more = EVERYDAY_KINDS.iter().filter(|_| edition == EVERYDAY);
        KINDS.iter().chain(more).find(|kind| kind.number == number)
    }

    /// The kind of the record at an offset, in the edition of the block's header.
    pub fn at(block: &[u8], at: usize) -> Option<&'static Kind> {
        Kind::of(two(block, at + 2)?, edition(block))
    }

    /// How many bytes its record has.
    pub fn length(&self) -> usize {
        match self.operand {
            Operand::None => HEAD,
            _ => HEAD + 2,
        }
    }
}

/// The edition that a block's header says; 1 where there is no header.
pub fn edition(block: &[u8]) -> u16 {
    Header::of(block).map_or(1, |header| header.edition)
}

#[derive(Clone, Copy, PartialEq, Eq, Debug)]
pub struct Header {
    pub edition: u16,
    pub version: u16,
    pub inputs: u16,
    pub outputs: u16,
    pub locals: u16,
}

impl Header {
    /// The header of a block that has one of the right length and kind.
    pub fn of(block: &[u8]) -> Option<Header> {
        if two(block, 0)? != HEADER as u16 || two(block, 2)? != HEADER_KIND {
            return None;
        }
        let field = |n: usize| two(block, HEAD + 2 * n);
        Some(Header { edition: field(0)?, version: field(1)?, inputs: field(2)?, outputs: field(3)?, locals: field(4)? })
    }

    pub fn signals(&self) -> usize {
        usize::from(self.inputs) + usize::from(self.outputs) + usize::from(self.locals)
    }
}

/// A state record: the version and the statement count of its block, its phase and its active pauses, bit n for pause n.
#[derive(Clone, Copy, PartialEq, Eq, Debug)]
pub struct State {
    pub version: u16,
    pub statements: u16,
    pub phase: u16,
    pub active: u128,
}

/// Where a state has its block's version and statement count, and its phase; its two words of pauses follow the phase.
const VERSION_AT: usize = HEAD;
const COUNT_AT: usize = VERSION_AT + 2;
const PHASE_AT: usize = COUNT_AT + 2;

impl State {
    /// The fields, where the bytes are a record of a state's length and kind.
    pub fn of(bytes: &[u8]) -> Option<State> {
        let state = State::from(bytes, STATE, PHASE_AT)?;
        Some(State { version: two(bytes, VERSION_AT)?, statements: two(bytes, COUNT_AT)?, ..state })
    }

    /// The same of an old record, which names no block: its version and its count are 0 here.
    pub fn of_old(bytes: &[u8]) -> Option<State> {
        State::from(bytes, OLD_STATE, HEAD)
    }

    /// The phase, which begins at this byte, and the pauses of a record of so many bytes.
    fn from(bytes: &[u8], length: usize, at: usize) -> Option<State> {
        if bytes.len() != length || !begins_state(bytes, length as u64) {
            return None;
        }
        let (low, high) = (eight(bytes, at + 2)?, eight(bytes, at + 10)?);
        Some(State { version: 0, statements: 0, phase: two(bytes, at)?, active: u128::from(low) | u128::from(high) << 64 })
    }

    pub fn phase_name(&self) -> Option<&'static str> {
        ["fresh", "running", "finished"].get(usize::from(self.phase)).copied()
    }

    /// The numbers of the active pauses.
    pub fn pauses(&self) -> Vec<usize> {
        (0..PAUSES).filter(|n| self.active >> n & 1 == 1).collect()
    }
}

#[derive(Clone, Copy, PartialEq, Eq, Debug)]
pub struct LogRecord {
    pub inputs: u64,
    /// The absent inputs; none of an old record, in which every input that is not present is absent.
    pub absent: Option<u64>,
    pub outputs: u64,
    pub code: u16,
    pub rounds: u16,
}

impl LogRecord {
    /// The fields, where the bytes begin with a log record, a new or an old one.
    pub fn of(bytes: &[u8]) -> Option<LogRecord> {
        let rest = record_length(bytes)? - HEAD - 12;
        let absent = if rest == 16 { Some(eight(bytes, HEAD + 8)?) } else { None };
        let (inputs, outputs) = (eight(bytes, HEAD)?, eight(bytes, HEAD + rest)?);
        Some(LogRecord { inputs, absent, outputs, code: two(bytes, HEAD + rest + 8)?, rounds: two(bytes, HEAD + rest + 10)? })
    }
}

/// How many bytes the log record has whose head the bytes begin with; none where it is no log record's head.
pub fn record_length(bytes: &[u8]) -> Option<usize> {
    let length = usize::from(two(bytes, 0)?);
    Some(length).filter(|length| matches!(*length, OLD_RECORD | RECORD) && two(bytes, 2) == Some(LOG_KIND))
}

/// Whether the bytes begin with the head of a log record.
pub fn begins_log_record(bytes: &[u8]) -> bool {
    record_length(bytes).is_some()
}

/// Whether the bytes begin with the head of a state record of their own length, today's or another.
pub fn begins_state(bytes: &[u8], length: u64) -> bool {
    two(bytes, 0).map(u64::from) == Some(length) && two(bytes, 2) == Some(STATE_KIND)
}

/// Whether the bytes begin with the head of an entry, as those of a shelf do that is not empty.
pub fn begins_entry(bytes: &[u8]) -> bool {
    two(bytes, 2) == Some(ENTRY_KIND) && two(bytes, 0).map_or(false, |length| usize::from(length) > ENTRY)
}

/// An entry of a shelf.
#[derive(Clone, Copy, PartialEq, Eq, Debug)]
pub struct Entry<'a> {
    pub party: u16,
    pub name: u16,
    pub block: &'a [u8],
}

impl Entry<'_> {
    /// How many bytes it has with its block.
    pub fn length(&self) -> usize {
        ENTRY + self.block.len()
    }
}

/// The entries of a shelf from its front on, as far as there are any.
pub fn entries(shelf: &[u8]) -> Vec<Entry<'_>> {
    let mut all: Vec<Entry> = Vec::new();
    let mut at = 0;
    while let Some(entry) = entry_at(shelf, at) {
        at += entry.length();
        all.push(entry);
    }
    all
}

fn entry_at(shelf: &[u8], at: usize) -> Option<Entry<'_>> {
    let length = usize::from(two(shelf, at)?);
    if two(shelf, at + 2)? != ENTRY_KIND {
        return None;
    }
    let block = shelf.get(at + ENTRY..at + length)?;
    Some(Entry { party: two(shelf, at + HEAD)?, name: two(shelf, at + HEAD + 2)?, block })
}

#[cfg(test)]
mod tests {
    use super::*;

    #[test]
    fn entries_of_a_shelf() {
        let shelf = [9, 0, 5, 0, 1, 0, 7, 1, 77, 10, 0, 5, 0, 0, 0, 7, 0, 1, 2, 0, 0, 0, 0, 0, 0, 0, 0];
        let found: Vec<_> = entries(&shelf).iter().map(|entry| (entry.party, entry.name, entry.block.to_vec(), entry.length())).collect();
        assert_eq!(found, [(1, 263, vec![77], 9), (0, 7, vec![1, 2], 10)]);
        for length in 0..shelf.len() {
            assert_eq!(entries(&shelf[..length]).len(), usize::from(length >= 9) + usize::from(length >= 19));
        }
        assert!(entries(&[7, 0, 5, 0, 0, 0, 0, 0, 0]).is_empty() && entries(&[9, 0, 4, 0, 0, 0, 0, 0, 0]).is_empty());
    }

    #[test]
    fn a_log_record() {
        let bytes = [32, 0, 3, 0, 1, 0, 0, 0, 0, 0, 0, 0, 6, 0, 0, 0, 0, 0, 0, 64, 2, 0, 0, 0, 0, 0, 0, 128, 1, 0, 3, 0];
        let fields = LogRecord { inputs: 1, absent: Some(6 + (64 << 56)), outputs: 2 + (128 << 56), code: 1, rounds: 3 };
        assert_eq!(LogRecord::of(&bytes), Some(fields));
        assert_eq!(LogRecord::of(&bytes[..31]), None);
    }

    #[test]
    fn an_old_log_record() {
        let bytes = [24, 0, 3, 0, 1, 0, 0, 0, 0, 0, 0, 0, 2, 0, 0, 0, 0, 0, 0, 128, 1, 0, 3, 0];
        assert_eq!(LogRecord::of(&bytes), Some(LogRecord { inputs: 1, absent: None, outputs: 2 + (128 << 56), code: 1, rounds: 3 }));
        assert_eq!(LogRecord::of(&bytes[..23]), None);
    }

    #[test]
    fn a_state() {
        let mut bytes = [26, 0, 2, 0, 7, 1, 4, 2, 1, 0, 5, 0, 0, 0, 0, 0, 0, 0, 0, 0, 0, 0, 0, 0, 0, 128];
        let state = State::of(&bytes).unwrap();
        assert_eq!((state.version, state.statements, state.phase, state.pauses()), (263, 516, 1, vec![0, 2, 127]));
        bytes[0] = 23;
        assert_eq!(State::of(&bytes), None);
    }

    #[test]
    fn an_old_state() {
        let bytes = [22, 0, 2, 0, 1, 0, 5, 0, 0, 0, 0, 0, 0, 0, 0, 0, 0, 0, 0, 0, 0, 128];
        assert_eq!(State::of(&bytes), None);
        assert_eq!(State::of_old(&bytes).map(|state| (state.phase, state.pauses())), Some((1, vec![0, 2, 127])));
        assert_eq!(State::of_old(&bytes[..21]), None);
    }

    #[test]
    fn kinds_and_lengths() {
        let lengths = |edition| (0..99).filter_map(|number| Kind::of(number, edition)).map(Kind::length).collect::<Vec<_>>();
        assert_eq!(lengths(1), [4, 4, 6, 6, 6, 4, 4, 4, 4, 6, 6]);
        assert_eq!(lengths(2)[11..], [4, 6, 6, 6]);
        assert!([15, 27, 31, 36].iter().all(|number| Kind::of(*number, 2).is_none()) && Kind::of(32, 1).is_none());
    }
}
