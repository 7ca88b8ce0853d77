//! The state record, the log record and the calls with all they give back; a refused call changes no byte.

use std::mem::swap;

use crate::block::{decode, Block, Form, Header, Refusal, Statement};
use crate::fault::Fault;
use crate::reaction::{active_of, Phase, Reaction};
use crate::rules::Rules;
use crate::values::{signal_bits, Heard};

pub const STATE: u16 = 9;
pub const CLASH: u16 = 10;
pub const INPUT: u16 = 11;
pub const ROOM: u16 = 12;
pub const NOT_CONSTRUCTIVE: u16 = 13;
pub const INDEX: u16 = 14;
pub const QUESTION: u16 = 16;
pub const OTHER_BLOCK: u16 = 17;

pub const STATE_SIZE: usize = 26;
pub const LOG_SIZE: usize = 32;

/// What a call gives back; number 0 is an answer, and every field not named is 0.
#[derive(Clone, Copy, PartialEq, Eq, Debug, Default)]
pub struct Answer {
    pub number: u16,
    pub place: usize,
    pub first: usize,
    pub second: usize,
    pub present: u64,
    pub absent: u64,
    pub undecided: u32,
    pub code: u32,
    pub rounds: u32,
    pub active: u32,
    pub end: u64,
    /// The statement that a reason names.
    pub statement: usize,
    /// Of a good block: version, inputs, outputs, locals, statements, pauses.
    pub summary: [usize; 6],
}

impl Answer {
    pub fn refused(number: u16) -> Answer {
        Answer { number, ..Answer::default() }
    }

    fn of_block(refusal: Refusal) -> Answer {
        Answer { place: refusal.place, ..Answer::refused(refusal.number) }
    }
}

/// The 26 bytes of a state: it names its block by version and statement count.
pub fn state_record(block: &Block, phase: Phase) -> Vec<u8> {
    let (version, count) = (block.header.version, block.statements as u16);
    let number: u16 = match phase {
        Phase::Fresh => 0,
        Phase::Running(_) => 1,
        Phase::Finished => 2,
    };
    let mut bytes = Vec::with_capacity(STATE_SIZE);
    [STATE_SIZE as u16, 2, version, count, number].iter().for_each(|word| bytes.extend(word.to_le_bytes()));
    bytes.extend(active_of(phase).to_le_bytes());
    bytes
}

/// Tests a block.
pub fn check(block: &[u8], fault: Fault) -> Answer {
    let good = |read: Block| Answer { summary: summary(&read, fault), ..Answer::default() };
    decode(block, fault).map_or_else(Answer::of_block, good)
}

/// Version, inputs, outputs, locals, statements, pauses.
fn summary(block: &Block, fault: Fault) -> [usize; 6] {
    let Header { version, inputs, outputs, locals } = block.header;
    let version = if fault == Fault::VersionNotGiven { 1 } else { version };
    let (mut statements, mut pauses) = (block.statements, block.pauses);
    if fault == Fault::CountsTurnedRound {
        swap(&mut statements, &mut pauses);
    }
    [version as usize, inputs as usize, outputs as usize, locals as usize, statements, pauses]
}

/// Writes a fresh state with the block's version and statement count; after 1 to 8, a size other than 26 gets 9.
pub fn fresh(block: &[u8], state: &mut [u8], fault: Fault) -> Answer {
    let read = match decode(block, fault) {
        Ok(read) => read,
        Err(refusal) => return Answer::of_block(refusal),
    };
    let larger = state.len() > STATE_SIZE && fault == Fault::FreshOfAnySize;
    if state.len() != STATE_SIZE && !larger {
        return Answer::refused(STATE);
    }
    state[..STATE_SIZE].copy_from_slice(&state_record(&read, Phase::Fresh));
    match fault {
        Fault::FreshWithoutVersion => state[4..6].fill(0),
        Fault::FreshCountsPauses => state[6..8].copy_from_slice(&(read.pauses as u16).to_le_bytes()),
        Fault::NameTurnedRound => state[4..8].rotate_left(2),
        _ => {}
    }
    Answer { summary: summary(&read, fault), ..Answer::default() }
}

/// The part of the lent block that holds a statement and all below it.
pub fn excerpt(block: &[u8], number: u64, fault: Fault) -> (Answer, &[u8]) {
    let read = match decode(block, fault) {
        Ok(read) => read,
        Err(refusal) => return (Answer::of_block(refusal), &[]),
    };
    if number == read.statements as u64 && fault == Fault::IndexAtCount {
        return (Answer::default(), &[]);
    }
    if number >= read.statements as u64 {
        return (Answer::refused(INDEX), &[]);
    }
    let found = read.root.find(number as usize).expect("each number below the count is in the tree");
    let end = match fault {
        Fault::ExcerptOneRecord => found.offset + found.form.length(),
        Fault::ExcerptByTail => block.len(),
        _ => found.end,
    };
    (Answer::default(), &block[found.offset..end])
}

/// One instant over the lent state: the call that hears of every input.
pub fn instant(block: &[u8], state: &mut [u8], inputs: u64, fault: Fault) -> Answer {
    instant_heard(block, state, Told::One(inputs), fault)
}

/// One instant that also writes its record into the log from its present end on.
pub fn instant_with_log(
    block: &[u8], state: &mut [u8], inputs: u64, log: &mut [u8], end: u64, fault: Fault,
) -> Answer {
    instant_heard_with_log(block, state, Told::One(inputs), log, end, fault)
}

/// What an instant is told of the inputs: one set, which leaves none unknown, or two.
#[derive(Clone, Copy)]
pub enum Told {
    One(u64),
    Two(Heard),
}

impl Told {
    /// With one set, every declared input that is not in it is absent.
    fn heard(self, block: &Block, fault: Fault) -> Heard {
        match self {
            Told::One(present) if fault == Fault::OneSetLeavesUnknown => Heard { present, absent: 0 },
            Told::One(present) => Heard::all(present, block.header.inputs),
            Told::Two(heard) => heard,
        }
    }
}

/// One instant with inputs present, inputs absent and the rest unknown.
pub fn instant_heard(block: &[u8], state: &mut [u8], told: Told, fault: Fault) -> Answer {
    match prepare(block, state, told, None, fault) {
        Err(answer) => answer,
        Ok((block, phase, heard)) => {
            let reaction = Rules { fault }.react_heard(&block, phase, heard);
            settle(&block, state, heard, reaction, fault)
        }
    }
}

/// The same with a log.
pub fn instant_heard_with_log(
    block: &[u8], state: &mut [u8], told: Told, log: &mut [u8], end: u64, fault: Fault,
) -> Answer {
    let (block, phase, heard) = match prepare(block, state, told, Some((log.len(), end)), fault) {
        Err(answer) => return answer,
        Ok(all) => all,
    };
    let reaction = Rules { fault }.react_heard(&block, phase, heard);
    let answer = settle(&block, state, heard, reaction, fault);
    if answer.number != 0 && fault != Fault::LogWrittenOnRefusal {
        return answer;
    }
    let shift = if fault == Fault::OutputsFromZero { block.header.inputs.min(63) } else { 0 };
    let record = log_record(logged_sets(&block, heard, fault), reaction.present >> shift, reaction);
    let at = if fault == Fault::RecordAtFront { 0 } else { log.len().min(end as usize) };
    let room = LOG_SIZE.min(log.len() - at);
    log[at..at + room].copy_from_slice(&record[..room]);
    let moved = answer.number == 0 && fault != Fault::EndNotMoved;
    Answer { end: if moved { end.wrapping_add(LOG_SIZE as u64) } else { 0 }, ..answer }
}

/// The two input sets as the log has them.
fn logged_sets(block: &Block, heard: Heard, fault: Fault) -> Heard {
    match fault {
        Fault::LogWithoutInputs => Heard { present: 0, ..heard },
        Fault::LogWithoutAbsent => Heard { absent: 0, ..heard },
        Fault::LogAbsentBeyond => Heard { absent: heard.absent | !signal_bits(0, block.header.inputs), ..heard },
        Fault::LogAbsentFirst => Heard { present: heard.absent, absent: heard.present },
        Fault::LogUnknownAbsent => Heard::all(heard.present, block.header.inputs),
        _ => heard,
    }
}

/// The 32 bytes of a log record: the absent set stands after the present one.
fn log_record(heard: Heard, present: u64, reaction: Reaction) -> Vec<u8> {
    let mut bytes = Vec::with_capacity(LOG_SIZE);
    [LOG_SIZE as u16, 3].iter().for_each(|word| bytes.extend(word.to_le_bytes()));
    bytes.extend(heard.present.to_le_bytes());
    bytes.extend(heard.absent.to_le_bytes());
    bytes.extend(present.to_le_bytes());
    bytes.extend((reaction.code.unwrap_or(0) as u16).to_le_bytes());
    bytes.extend((reaction.rounds as u16).to_le_bytes());
    bytes
}

/// Gives the answer of a reaction and writes the next state over the lent one.
fn settle(block: &Block, state: &mut [u8], heard: Heard, reaction: Reaction, fault: Fault) -> Answer {
    let answer = Answer { present: reaction.present, rounds: reaction.rounds, ..Answer::default() };
    if reaction.code.is_none() {
        if fault == Fault::StateWrittenOnRefusal {
            state.copy_from_slice(&state_record(block, Phase::Finished));
        }
        let unknown = signal_bits(0, block.header.inputs) & !heard.present & !heard.absent;
        let undecided = match fault {
            Fault::UndecidedNotGiven => 0,
            Fault::UnknownInputsCounted => reaction.undecided + unknown.count_ones(),
            _ => reaction.undecided,
        };
        return Answer { number: NOT_CONSTRUCTIVE, absent: reaction.absent, undecided, ..answer };
    }
    state[..STATE_SIZE].copy_from_slice(&state_record(block, reaction.next));
    if fault == Fault::NextWithoutName {
        state[4..8].fill(0);
    }
    if fault == Fault::UpperWordUnwritten {
        state[STATE_SIZE - 8..STATE_SIZE].fill(0);
    }
    let active = active_of(reaction.next).count_ones();
    Answer {
        code: reaction.code.unwrap_or(0),
        active: if fault == Fault::ActiveNotGiven { 0 } else { active },
        absent: if fault == Fault::AbsentGiven { reaction.absent } else { 0 },
        ..answer
    }
}

/// The block and the state of an instant, tested in order: 1 to 8, then 9, 17, 10, 11 and, with a log, 12.
pub fn prepare(
    block: &[u8], state: &[u8], told: Told, log: Option<(usize, u64)>, fault: Fault,
) -> Result<(Block, Phase, Heard), Answer> {
    let block = decode(block, fault).map_err(Answer::of_block)?;
    let heard = told.heard(&block, fault);
    let input_bad = bad_inputs(&block, heard, fault);
    let room_bad = log.map_or(false, |(size, end)| no_room(size, end, fault));
    let phase = read_state(state, &block, fault);
    let clash = first_clash(state, &block, fault);
    let other = names_other(state, &block, fault);
    if fault == Fault::OtherBlockBeforeState && other {
        return Err(Answer::refused(OTHER_BLOCK));
    }
    if fault == Fault::ClashBeforeState && clash.is_some() {
        return Err(clash_answer(clash));
    }
    let phase = phase.ok_or_else(|| Answer::refused(STATE))?;
    if fault == Fault::ClashBeforeOtherBlock && clash.is_some() {
        return Err(clash_answer(clash));
    }
    if other {
        return Err(Answer::refused(if fault == Fault::OtherBlockIsState { STATE } else { OTHER_BLOCK }));
    }
    if fault == Fault::InputBeforeClash && input_bad {
        return Err(Answer::refused(INPUT));
    }
    if clash.is_some() {
        return Err(clash_answer(clash));
    }
    if fault == Fault::RoomBeforeInput && room_bad {
        return Err(Answer::refused(ROOM));
    }
    if input_bad {
        return Err(Answer::refused(INPUT));
    }
    if room_bad {
        return Err(Answer::refused(ROOM));
    }
    Ok((block, phase, heard))
}

fn clash_answer(clash: Option<(usize, usize)>) -> Answer {
    let (first, second) = clash.unwrap_or((0, 0));
    Answer { first, second, ..Answer::refused(CLASH) }
}

/// INPUT: a bit at or above the number of inputs in either set, or a signal in both.
fn bad_inputs(block: &Block, heard: Heard, fault: Fault) -> bool {
    let beyond = !signal_bits(0, input_count(block, fault));
    let absent = match fault {
        Fault::AbsentBitsUnread => 0,
        Fault::AbsentBitAtCount => heard.absent & !signal_bits(0, block.header.inputs + 1),
        _ => heard.absent,
    };
    let both = heard.present & heard.absent != 0 && fault != Fault::InBothSets;
    heard.present & beyond != 0 || absent & beyond != 0 || both
}

fn input_count(block: &Block, fault: Fault) -> u16 {
    block.header.inputs + (fault == Fault::InputBitAtCount) as u16
}

/// ROOM: the end beyond the log, or fewer than 32 bytes after it.
fn no_room(size: usize, end: u64, fault: Fault) -> bool {
    let needed = match fault {
        Fault::RoomOneLess => LOG_SIZE - 1,
        Fault::RoomOneMore => LOG_SIZE + 1,
        Fault::RoomOfOldRecord => 24,
        _ => LOG_SIZE,
    };
    match (size as u64).checked_sub(end) {
        Some(left) => left < needed as u64,
        None => fault != Fault::EndUnread,
    }
}

fn word(bytes: &[u8], at: usize) -> u16 {
    u16::from_le_bytes([bytes[at], bytes[at + 1]])
}

fn bits(state: &[u8]) -> u128 {
    let mut sixteen = [0; 16];
    sixteen.copy_from_slice(&state[10..STATE_SIZE]);
    u128::from_le_bytes(sixteen)
}

/// The active set as an instant takes it up.
fn taken_up(active: u128, fault: Fault) -> u128 {
    if fault == Fault::UpperWordUnread && active as u64 != 0 { active & u64::MAX as u128 } else { active }
}

/// STATE: anything but 26 bytes of a good phase with the bits it may have.
fn read_state(state: &[u8], block: &Block, fault: Fault) -> Option<Phase> {
    let size_good = state.len() == STATE_SIZE || fault == Fault::StateOfAnySize && state.len() > STATE_SIZE;
    if !size_good {
        return None;
    }
    let length_good = word(state, 0) == STATE_SIZE as u16 || fault == Fault::StateLengthUnread;
    let kind_good = word(state, 2) == 2 || fault == Fault::StateKindUnread;
    let allowed = block.pauses + (fault == Fault::PauseBitAtCount) as usize;
    let active = bits(state);
    let bits_good = (allowed..128).all(|pause| active >> pause & 1 == 0);
    if !length_good || !kind_good || !bits_good {
        return None;
    }
    match word(state, 8) {
        0 if active == 0 || fault == Fault::BitsWhileFresh => Some(Phase::Fresh),
        1 if active != 0 => Some(Phase::Running(taken_up(active, fault))),
        1 if fault == Fault::RunningWithoutPauses => Some(Phase::Finished),
        2 if active == 0 || fault == Fault::BitsWhileFinished => Some(Phase::Finished),
        3 if fault == Fault::PhaseThreeAllowed => Some(Phase::Finished),
        _ => None,
    }
}

/// OTHER BLOCK: the version or the statement count is not this block's.
fn names_other(state: &[u8], block: &Block, fault: Fault) -> bool {
    if state.len() < STATE_SIZE {
        return false;
    }
    let version = word(state, 4) != block.header.version && fault != Fault::StateVersionUnread;
    let count = word(state, 6) as usize != block.statements && fault != Fault::StateCountUnread;
    let later = word(state, 4) > block.header.version;
    if fault == Fault::NewerVersionAllowed { later || count } else { version || count }
}

/// The first pair of active pauses that are not compatible: lowest first pause, then lowest second.
fn first_clash(state: &[u8], block: &Block, fault: Fault) -> Option<(usize, usize)> {
    if state.len() < STATE_SIZE {
        return None;
    }
    let active = bits(state);
    let on: Vec<usize> = (0..block.pauses.min(128)).filter(|&pause| active >> pause & 1 == 1).collect();
    let mut pairs = Vec::new();
    for (n, &first) in on.iter().enumerate() {
        for &second in &on[n + 1..] {
            if !compatible(&block.root, first, second, fault) {
                pairs.push((first, second));
            }
        }
    }
    if fault == Fault::ClashBySecond {
        pairs.sort_by_key(|&(first, second)| (second, first));
    }
    pairs.first().copied()
}

/// Two pauses are compatible when the lowest statement above both is a parallel.
fn compatible(p: &Statement, first: usize, second: usize, fault: Fault) -> bool {
    let both = 1u128 << first | 1u128 << second;
    match p.parts.iter().find(|part| part.pauses & both == both) {
        Some(part) => compatible(part, first, second, fault),
        None => match fault {
            Fault::EveryPairCompatible => true,
            Fault::BranchesCompatible => p.form == Form::Parallel || p.form == Form::Present,
            _ => p.form == Form::Parallel,
        },
    }
}
