//! Foldheron from Rust: the calls of the proved static library as safe functions. No dependencies.
//!
//! `tools/archive` proves the library and writes `target/staticlib/libfoldheron.a`, for x86-64 Linux. With Cargo, name it, or its folder, by its full
//! path in the variable FOLDHERON_ARCHIVE; with rustc alone, link it with `-C link-arg=target/staticlib/libfoldheron.a`. What a call gives back is
//! what `include/foldheron.h` documents.
//! The three things that a C caller must see to hold by themselves here: a slice's bytes are all there, and what is lent as `&mut`
//! overlaps nothing else that is lent and is touched by no other thread.

use std::fmt;

mod raw;

/// A good block's version and counts.
#[derive(Clone, Copy, PartialEq, Eq, Debug)]
pub struct Summary {
    pub version: u16,
    pub inputs: u16,
    pub outputs: u16,
    pub locals: u16,
    pub statements: u16,
    pub pauses: u16,
}

/// A call that was turned down: the number and the place, of 1 to 8 an offset in the block, of 15 one in the text, else 0.
#[derive(Clone, Copy, PartialEq, Eq, Debug)]
pub struct Refusal {
    pub number: u16,
    pub place: usize,
}

/// The name of a refusal's number; none of a number that has none.
pub fn name_of(number: u16) -> Option<&'static str> {
    Some(match number {
        1 => "BROKEN",
        2 => "KIND",
        3 => "EDITION",
        4 => "LIMIT",
        5 => "SIGNAL",
        6 => "EXIT",
        7 => "SHAPE",
        8 => "LOOP",
        9 => "STATE",
        10 => "CLASH",
        11 => "INPUT",
        12 => "ROOM",
        13 => "NOT CONSTRUCTIVE",
        14 => "INDEX",
        15 => "TEXT",
        16 => "QUESTION",
        17 => "OTHER BLOCK",
        18 => "PARTY",
        19 => "SHELF",
        20 => "TAKEN",
        21 => "QUOTA",
        22 => "ABSENT",
        23 => "INTERFACE",
        24 => "WIDE",
        25 => "PAIRS",
        26 => "FORM",
        _ => return None,
    })
}

impl fmt::Display for Refusal {
    fn fmt(&self, f: &mut fmt::Formatter<'_>) -> fmt::Result {
        write!(f, "refused with {}, {}", self.number, name_of(self.number).unwrap_or("which has no name"))?;
        match self.number {
            1..=8 => write!(f, ", at offset {} of the block", self.place),
            15 => write!(f, ", at offset {} of the text", self.place),
            _ => Ok(()),
        }
    }
}

impl std::error::Error for Refusal {}

/// An answered instant: the present outputs by signal number, the code (1: it goes on, 0: it finished), the rounds, the active pauses.
#[derive(Clone, Copy, PartialEq, Eq, Debug)]
pub struct Reaction {
    pub present: u64,
    pub code: u16,
    pub rounds: u16,
    pub active: u16,
}

/// What is known of an instant that is not constructive (13).
#[derive(Clone, Copy, PartialEq, Eq, Debug)]
pub struct Doubt {
    pub present: u64,
    pub absent: u64,
    pub undecided: u16,
    pub rounds: u16,
}

#[derive(Clone, Copy, PartialEq, Eq, Debug)]
pub enum Instant {
    Answered(Reaction),
    /// 13: the state is as it was.
    NotConstructive(Doubt),
    /// 10: two active pauses of the state that cannot be active together, by their numbers, from 0 as they stand in the block.
    Clash(u16, u16),
    Refused(Refusal),
}

impl Instant {
    /// The number of the refusal, 0 where the instant was answered.
    pub fn number(&self) -> u16 {
        match self {
            Instant::Answered(_) => 0,
            Instant::NotConstructive(_) => 13,
            Instant::Clash(_, _) => 10,
            Instant::Refused(refusal) => refusal.number,
        }
    }
}

/// An instant with a log: its answer, and the log's new end. Where it was refused no record is written and the end here is 0: the
/// caller goes on with the end it had.
#[derive(Clone, Copy, PartialEq, Eq, Debug)]
pub struct Logged {
    pub answer: Instant,
    pub end: usize,
}

/// What is asked about an instant.
#[derive(Clone, Copy, PartialEq, Eq, Debug)]
pub enum Asked {
    /// Why it is refused with 13.
    Refused,
    /// Why this output, a signal number, is present.
    Present(usize),
    /// Why this emit, a statement number, was not executed.
    NotExecuted(usize),
}

/// The statement that accounts for it, by its number, or why none does.
#[derive(Clone, Copy, PartialEq, Eq, Debug)]
pub enum Reason {
    Statement(usize),
    /// 10: two active pauses of the state that cannot be active together.
    Clash(u16, u16),
    /// 16 where the thing asked about is not so.
    Refused(Refusal),
}

impl Reason {
    /// The number of the refusal, 0 where a statement is named.
    pub fn number(&self) -> u16 {
        match self {
            Reason::Statement(_) => 0,
            Reason::Clash(_, _) => 10,
            Reason::Refused(refusal) => refusal.number,
        }
    }
}

/// Whether two blocks are alike, with the run that shows that they are not; or what is turned down: the first block, the second, or the call.
#[derive(Clone, Copy, PartialEq, Eq, Debug)]
pub enum Likeness<'a> {
    Alike,
    /// A shortest run of input sets that shows a difference, the first in numeric order among those: one byte a set, bit n for input n.
    Different(&'a [u8]),
    /// 1 to 8 of the first block.
    First(Refusal),
    /// 1 to 8 of the second block.
    Second(Refusal),
    /// 23, 24, 12 or 25.
    Refused(Refusal),
}

impl Likeness<'_> {
    /// The number of the refusal, 0 where the blocks were compared.
    pub fn number(&self) -> u16 {
        match self {
            Likeness::Alike | Likeness::Different(_) => 0,
            Likeness::First(refusal) | Likeness::Second(refusal) | Likeness::Refused(refusal) => refusal.number,
        }
    }
}

/// The signals, inputs and outputs, whose rooms win, lose and draw: bit n for signal n.
#[derive(Clone, Copy, PartialEq, Eq, Debug)]
pub struct Rooms {
    pub winning: u64,
    pub losing: u64,
    pub drawn: u64,
}

/// A room of a maze.
#[derive(Clone, Copy, PartialEq, Eq, Debug)]
pub enum Room {
    /// A signal's, by its number.
    Signal(usize),
    /// A statement's, by its number, as a signal's room sees it, by that signal's number.
    Part(usize, usize),
    /// The one between a present and its part, by the present's statement number, as a signal's room sees it.
    Gate(usize, usize),
    Dungeon,
}

/// A corridor of a room and the room that it leads to.
#[derive(Clone, Copy, PartialEq, Eq, Debug)]
pub enum Corridor {
    Visible(Room),
    Secret(Room),
    /// The room has no corridor of that number.
    NoMore,
    /// There is no such room: no statement of that number, no present where a gate is asked for, or no such signal. A statement has a room as any declared signal would see it;
    /// the maze itself are the rooms that a walk from the signals' rooms comes to.
    NoRoom,
}

/// The version of the library's calls and records, as FOLDHERON_VERSION in `include/foldheron.h`.
pub const VERSION: &str = "2.0.0";
/// How many bytes a block has at most.
pub const BLOCK_MOST: usize = 3086;
/// How many bytes a state has.
pub const STATE: usize = 26;
/// How many bytes a log record has.
pub const RECORD: usize = 32;

/// How many bytes a shelf has. An empty one is that many zeros.
pub const SHELF: usize = 65_536;
/// How many bytes of entries each of its two parties may hold: of each entry 8 and its block's.
pub const HELD_MOST: usize = 32_768;
/// How many bytes the text of a block has at most.
pub const TEXT_MOST: usize = 137_305;
/// How many bytes a run has to be lent at least: as many as one that is written may have.
pub const RUN_MOST: usize = 1024;

/// Checks a block.
pub fn check(block: &[u8]) -> Result<Summary, Refusal> {
    let a = raw::check(block);
    refusal(&a)?;
    Ok(Summary {
        version: small(&a, 2),
        inputs: small(&a, 3),
        outputs: small(&a, 4),
        locals: small(&a, 5),
        statements: small(&a, 6),
        pauses: small(&a, 7),
    })
}

/// Writes the fresh state of a block, with the block's version and statement count, into 26 lent bytes.
pub fn fresh(block: &[u8], state: &mut [u8]) -> Result<(), Refusal> {
    refusal(&raw::fresh(block, state))
}

/// Runs one instant: bit n of `inputs` is set where input n is present. Answered, the state is the next one; else it is as it was.
pub fn instant(block: &[u8], state: &mut [u8], inputs: u64) -> Instant {
    told(&raw::instant(block, state, inputs))
}

/// Runs one instant and writes its record into the log from `end` on; refused, no byte of the log changes.
pub fn instant_logged(block: &[u8], state: &mut [u8], inputs: u64, log: &mut [u8], end: usize) -> Logged {
    let a = raw::instant_logged(block, state, inputs, log, end);
    Logged { answer: told(&a), end: number(&a, 10) as usize }
}

/// Runs one instant of which not every input is heard: bit n of `present` is set where input n is present, bit n of `absent` where it is absent,
/// and an input in neither set is unknown. Answered, it has the outputs, the code and the next state that come with any statuses for the unknown
/// ones; the rounds may differ.
pub fn instant_heard(block: &[u8], state: &mut [u8], present: u64, absent: u64) -> Instant {
    told(&raw::instant_heard(block, state, present, absent))
}

/// The same, and its record written into the log from `end` on; refused, no byte of the log changes.
pub fn instant_heard_logged(block: &[u8], state: &mut [u8], present: u64, absent: u64, log: &mut [u8], end: usize) -> Logged {
    let a = raw::instant_heard_logged(block, state, present, absent, log, end);
    Logged { answer: told(&a), end: number(&a, 10) as usize }
}

/// The part of the block that holds statement n and all below it, to show or compare. Statements are numbered from 0 as they stand in
/// the block.
pub fn excerpt(block: &[u8], n: usize) -> Result<&[u8], Refusal> {
    let a = raw::excerpt(block, n);
    refusal(&a)?;
    let offset = number(&a, 2) as usize;
    Ok(&block[offset..offset + number(&a, 3) as usize])
}

/// Says why, of the instant that `instant_heard` would run with the same state and inputs; nothing is run or written. Of a refused instant (13) the lowest
/// present started, or suspend resumed, that must be reached in the final round with its signal undecided there; of a present output of an answered one its
/// lowest emit that was executed; of an emit that was not executed the topmost statement on its path that was not, which `excerpt` shows. Of an instant that
/// `instant` ran, `absent` is every other declared input.
pub fn reason(block: &[u8], state: &[u8], present: u64, absent: u64, asked: Asked) -> Reason {
    let (kind, about) = match asked {
        Asked::Refused => (0, 0),
        Asked::Present(signal) => (1, signal),
        Asked::NotExecuted(statement) => (2, statement),
    };
    let a = raw::reason(block, state, present, absent, kind, about);
    match refusal(&a) {
        Ok(()) => Reason::Statement(number(&a, 4) as usize),
        Err(Refusal { number: 10, .. }) => Reason::Clash(small(&a, 2), small(&a, 3)),
        Err(other) => Reason::Refused(other),
    }
}

/// Puts a block on the shelf as the party's block of that name, after the last entry. Refused, no byte of the shelf changes.
pub fn install(shelf: &mut [u8], party: u16, name: u16, block: &[u8]) -> Result<(), Refusal> {
    refusal(&raw::install(shelf, party, name, block))
}

/// The party's block of that name: copied into the lent bytes, of which the part that it fills is handed back. A part of the shelf itself would
/// tell where it lies, and that depends on what the other party has installed. Refused, no lent byte changes.
pub fn fetch<'a>(shelf: &[u8], party: u16, name: u16, into: &'a mut [u8; BLOCK_MOST]) -> Result<&'a [u8], Refusal> {
    let a = raw::fetch(shelf, party, name, into);
    refusal(&a)?;
    Ok(&into[..number(&a, 2) as usize])
}

/// Takes the party's block of that name off the shelf and closes the gap: the entries behind it keep their content and order. Refused, no byte
/// of the shelf changes.
pub fn withdraw(shelf: &mut [u8], party: u16, name: u16) -> Result<(), Refusal> {
    refusal(&raw::withdraw(shelf, party, name))
}

/// Tells whether two blocks with as many inputs and outputs, at most 6 inputs, are alike: whether from fresh, in every instant under every input run, they
/// have the same outputs present and the same code, or both have a 13. If not, the run that shows it is written to the front of the lent bytes, of which
/// there are `RUN_MOST` or more, and that part is handed back; no other byte of them changes.
pub fn alike<'a>(first: &[u8], second: &[u8], run: &'a mut [u8]) -> Likeness<'a> {
    let a = raw::alike(first, second, run);
    match (refusal(&a), number(&a, 2), number(&a, 3) as usize) {
        (Ok(()), _, 0) => Likeness::Alike,
        (Ok(()), _, length) => Likeness::Different(&run[..length]),
        (Err(down), 1, _) => Likeness::First(down),
        (Err(down), 2, _) => Likeness::Second(down),
        (Err(down), _, _) => Likeness::Refused(down),
    }
}

/// The block with each loop body in sequence with itself, from the inside out, written to the front of the lent bytes: the part that it fills is handed back, and
/// no other byte of them changes. From fresh, any input run gives the same outputs, codes and 13 on both blocks. `BLOCK_MOST` bytes are enough for any; refused
/// with 4 and place 0 where the doubled block passes a limit.
pub fn double_loops<'a>(block: &[u8], out: &'a mut [u8]) -> Result<&'a [u8], Refusal> {
    let a = raw::double_loops(block, out);
    refusal(&a)?;
    Ok(&out[..number(&a, 2) as usize])
}

/// A block of edition 2, whose statements may also be halt, sustain, await and abort, written in edition 1 to the front of the lent bytes: the part that it fills is handed back,
/// and no other byte of them changes. `BLOCK_MOST` bytes are enough for any. From fresh, any input run gives on it the outputs, codes and 13 that the four statements mean. Refused with 1
/// to 8 of the block lent, with 3 any edition but 2; then with 4 at place 0 where what would be written passes a limit; then with 12.
pub fn convert<'a>(block: &[u8], out: &'a mut [u8]) -> Result<&'a [u8], Refusal> {
    let a = raw::convert(block, out);
    refusal(&a)?;
    Ok(&out[..number(&a, 2) as usize])
}

/// The block as text, in the grammar of `docs/FORMAT.md`, written to the front of the lent bytes: the part that it fills is handed back, and no other byte of
/// them changes. `TEXT_MOST` bytes are enough for any. A block has one text, which is ASCII: signals are named `I0`, `O1` or `S2` by their numbers, traps `T0`, `T1` ..
pub fn write_text<'a>(block: &[u8], text: &'a mut [u8]) -> Result<&'a [u8], Refusal> {
    let a = raw::write_text(block, text);
    refusal(&a)?;
    Ok(&text[..number(&a, 2) as usize])
}

/// The block that a text stands for, written to the front of the lent bytes: the part that it fills is handed back, and no other byte of them changes. `BLOCK_MOST` bytes are
/// enough for any. Names are not kept. A text outside the grammar, or with a name at fault, is refused with 15 at the first byte of the token at fault, or at its end; then the block
/// with 1 to 8, the place being an offset in that block, and with 12 where too few bytes are lent. Over 1,024 places open at once besides the outermost are a 4 there and then.
pub fn read_text<'a>(text: &[u8], block: &'a mut [u8]) -> Result<&'a [u8], Refusal> {
    let a = raw::read_text(text, block);
    refusal(&a)?;
    Ok(&block[..number(&a, 2) as usize])
}

/// Whose rooms win, lose and draw in the maze of the block's first instant with these inputs present and the others absent: the signals that are present, absent
/// and undecided in the final round. For blocks made of emit, parallel, and present with `nothing` in exactly one branch, the statement `nothing` standing nowhere else; others are
/// refused with 26.
pub fn maze(block: &[u8], inputs: u64) -> Result<Rooms, Refusal> {
    let a = raw::maze(block, inputs);
    refusal(&a)?;
    Ok(Rooms { winning: number(&a, 2), losing: number(&a, 3), drawn: number(&a, 4) })
}

/// Corridor n, from 0 on, of a room of that maze.
pub fn corridor(block: &[u8], inputs: u64, room: Room, n: usize) -> Result<Corridor, Refusal> {
    let (kind, first, second) = match room {
        Room::Signal(signal) => (0, signal, 0),
        Room::Part(statement, signal) => (1, statement, signal),
        Room::Gate(statement, signal) => (2, statement, signal),
        Room::Dungeon => (3, 0, 0),
    };
    let a = raw::corridor(block, inputs, kind, first, second, n);
    refusal(&a)?;
    let (first, second) = (number(&a, 4) as usize, number(&a, 5) as usize);
    let leads = match number(&a, 3) {
        0 => Room::Signal(first),
        1 => Room::Part(first, second),
        2 => Room::Gate(first, second),
        _ => Room::Dungeon,
    };
    Ok(match number(&a, 2) {
        0 => Corridor::NoMore,
        1 => Corridor::Visible(leads),
        2 => Corridor::Secret(leads),
        _ => Corridor::NoRoom,
    })
}

/// The n-th number of an answer.
fn number(a: &[u8], n: usize) -> u64 {
    let mut bytes = [0; 8];
    bytes.copy_from_slice(&a[8 * n..8 * n + 8]);
    u64::from_le_bytes(bytes)
}

/// One that two bytes hold: a count, a code, a pause or a refusal.
fn small(a: &[u8], n: usize) -> u16 {
    number(a, n) as u16
}

fn refusal(a: &[u8]) -> Result<(), Refusal> {
    match small(a, 0) {
        0 => Ok(()),
        turned_down => Err(Refusal { number: turned_down, place: number(a, 1) as usize }),
    }
}

fn told(a: &[u8]) -> Instant {
    let (present, rounds) = (number(a, 4), small(a, 7));
    match refusal(a) {
        Ok(()) => Instant::Answered(Reaction { present, code: small(a, 8), rounds, active: small(a, 9) }),
        Err(Refusal { number: 13, .. }) => {
            Instant::NotConstructive(Doubt { present, absent: number(a, 5), undecided: small(a, 6), rounds })
        }
        Err(Refusal { number: 10, .. }) => Instant::Clash(small(a, 2), small(a, 3)),
        Err(other) => Instant::Refused(other),
    }
}
