//! A block: reading it from bytes with the refusals 1 to 8, and writing it.

use crate::fault::{Fault, Limits};
use crate::loops::loop_at_fault;
pub use crate::statement::{pause_bit, Form, Statement, Token, FORMS};

pub const BROKEN: u16 = 1;
pub const KIND: u16 = 2;
pub const EDITION: u16 = 3;
pub const LIMIT: u16 = 4;
pub const SIGNAL: u16 = 5;
pub const EXIT: u16 = 6;
pub const SHAPE: u16 = 7;
pub const LOOP: u16 = 8;

/// A block that was read and found good.
#[derive(Clone, Debug)]
pub struct Block {
    pub header: Header,
    pub statements: usize,
    pub pauses: usize,
    pub root: Statement,
}

#[derive(Clone, Copy, PartialEq, Eq, Debug)]
pub struct Header {
    pub version: u16,
    pub inputs: u16,
    pub outputs: u16,
    pub locals: u16,
}

/// A refusal of a block: its number and place.
#[derive(Clone, Copy, PartialEq, Eq, Debug)]
pub struct Refusal {
    pub number: u16,
    pub place: usize,
}

/// Writes a tree as a block.
pub fn encode(header: Header, root: &Statement) -> Vec<u8> {
    encode_tokens(header, &root.tokens())
}

/// Writes statements in preorder as a block, whether they make a good tree or not.
pub fn encode_tokens(header: Header, tokens: &[Token]) -> Vec<u8> {
    encode_edition(1, header, tokens)
}

/// The same in either edition.
pub fn encode_edition(edition: u16, header: Header, tokens: &[Token]) -> Vec<u8> {
    let mut bytes = Vec::with_capacity(14 + 6 * tokens.len());
    let head = [14, 1, edition, header.version, header.inputs, header.outputs, header.locals];
    head.iter().for_each(|word| bytes.extend(word.to_le_bytes()));
    for &(form, operand) in tokens {
        bytes.extend((form.length() as u16).to_le_bytes());
        bytes.extend(form.kind().to_le_bytes());
        if form.has_operand() {
            bytes.extend(operand.to_le_bytes());
        }
    }
    bytes
}

/// Reads a block of edition 1: the size first, the records from the front, and the loops last.
pub fn decode(bytes: &[u8], fault: Fault) -> Result<Block, Refusal> {
    decode_edition(bytes, 1, fault)
}

/// The same of either edition.
pub fn decode_edition(bytes: &[u8], edition: u16, fault: Fault) -> Result<Block, Refusal> {
    let limits = Limits::of(fault);
    if bytes.len() > limits.size {
        return refuse(LIMIT, 0);
    }
    let mut reader = Reader { bytes, edition, fault, limits, at: 0, signals: 0, statements: 0, pauses: 0, stops: 0, locals: 0 };
    let header = reader.header()?;
    reader.signals = reader.sum(header);
    let root = reader.statement(header, Around { path: 1, traps: 0, locals: 0, scope: 0 })?;
    reader.close(header)?;
    match loop_at_fault(&root, fault) {
        Some(place) => refuse(LOOP, place),
        None => Ok(Block { header, statements: reader.statements, pauses: reader.pauses, root }),
    }
}

fn refuse<T>(number: u16, place: usize) -> Result<T, Refusal> {
    Err(Refusal { number, place })
}

/// What stands around a statement: its place on the path, the traps and locals that enclose it.
#[derive(Clone, Copy)]
struct Around {
    path: usize,
    traps: usize,
    locals: usize,
    /// One bit for each local whose body this is in.
    scope: u128,
}

struct Reader<'a> {
    bytes: &'a [u8],
    edition: u16,
    fault: Fault,
    limits: Limits,
    at: usize,
    signals: usize,
    statements: usize,
    pauses: usize,
    /// The pauses and what else a run may stop at.
    stops: usize,
    locals: usize,
}

impl<'a> Reader<'a> {
    fn word(&self, at: usize) -> u16 {
        u16::from_le_bytes([self.bytes[at], self.bytes[at + 1]])
    }

    fn left(&self) -> usize {
        self.bytes.len() - self.at
    }

    /// BROKEN: a length below 4 or above what is left.
    fn length_fits(&self) -> bool {
        let length = self.word(self.at) as usize;
        4 <= length && length <= self.left()
    }

    /// The counts are 16 bits each, so their sum is taken in more.
    fn sum(&self, header: Header) -> usize {
        if self.fault == Fault::SignalSumWraps {
            return header.inputs.wrapping_add(header.outputs).wrapping_add(header.locals) as usize;
        }
        header.inputs as usize + header.outputs as usize + header.locals as usize
    }

    fn header(&mut self) -> Result<Header, Refusal> {
        if self.left() == 0 && self.fault == Fault::EmptyBlockIsShape {
            return refuse(SHAPE, 0);
        }
        if self.left() < 4 || !self.length_fits() {
            return refuse(BROKEN, 0);
        }
        let length = self.word(0) as usize;
        let length_good = length == 14 || self.fault == Fault::HeaderLengthFree && length > 14;
        if self.word(2) != 1 || !length_good {
            return refuse(KIND, 0);
        }
        if self.word(4) != self.edition && self.fault != Fault::EditionUnchecked {
            return refuse(EDITION, 0);
        }
        let header = Header {
            version: self.word(6), inputs: self.word(8), outputs: self.word(10), locals: self.word(12),
        };
        if self.sum(header) > self.limits.signals {
            return refuse(LIMIT, 0);
        }
        self.at = length;
        Ok(header)
    }

    /// The form of the statement due here: SHAPE, BROKEN and KIND are told before its operand is read.
    fn form(&self) -> Result<Form, Refusal> {
        let at = self.at;
        if self.left() == 0 {
            return refuse(if self.fault == Fault::NoByteLeftIsBroken { BROKEN } else { SHAPE }, at);
        }
        if self.left() < 4 {
            return refuse(if self.fault == Fault::CutRecordIsShape { SHAPE } else { BROKEN }, at);
        }
        let kind = self.word(at + 2);
        let form = if self.edition == 2 { Form::of_wide_kind(kind) } else { Form::of_kind(kind) };
        if self.fault == Fault::KindBeforeBroken && form.is_none() {
            return refuse(KIND, at);
        }
        if !self.length_fits() {
            return refuse(BROKEN, at);
        }
        let length = self.word(at) as usize;
        match form {
            Some(form) if length == form.length() => Ok(form),
            Some(form) if self.fault == Fault::LengthNotKinds && length > form.length() => Ok(form),
            _ => refuse(KIND, at),
        }
    }

    /// LIMIT: one more of something than there may be.
    fn over_limit(&self, form: Form, around: Around) -> bool {
        self.statements >= self.limits.statements
            || around.path > self.limits.path
            || (form == Form::Pause || form.stops() && self.fault == Fault::StopsAsPauses) && self.pauses >= self.limits.pauses
            || form == Form::Trap && around.traps >= self.limits.traps
            || form == Form::Local && around.locals >= self.limits.locals
    }

    /// SIGNAL: not declared, a local outside its body, an input emitted, a local out of turn.
    fn bad_signal(&self, header: Header, form: Form, operand: u16, around: Around) -> bool {
        let signal = operand as usize;
        let from_locals = header.inputs as usize + header.outputs as usize;
        let declared = signal < self.signals
            || self.fault == Fault::SignalAtCountAllowed && signal == self.signals && form != Form::Local;
        let in_scope = signal < from_locals
            || signal >= self.signals
            || around.scope >> signal & 1 == 1
            || self.fault == Fault::LocalOutsideBody;
        let next = signal == from_locals + self.locals
            || self.fault == Fault::LocalAnyNumber && signal >= from_locals;
        match form {
            Form::Local => !declared || !next,
            Form::Emit | Form::Sustain => {
                let sustained = form == Form::Sustain && self.fault == Fault::SustainOfInput;
                let input = signal < header.inputs as usize && self.fault != Fault::EmitOfInputAllowed && !sustained;
                !declared || !in_scope || input
            }
            Form::Await if self.fault == Fault::AwaitOfInputRefused => !declared || !in_scope || signal < header.inputs as usize,
            Form::Present | Form::Suspend | Form::Await | Form::Abort => !declared || !in_scope,
            _ => false,
        }
    }

    /// Tests the record of a statement in the order of the numbers.
    fn test(&self, header: Header, form: Form, operand: u16, around: Around) -> Result<(), Refusal> {
        let signal = self.bad_signal(header, form, operand, around);
        if signal && self.fault == Fault::SignalBeforeLimit {
            return refuse(SIGNAL, self.at);
        }
        if self.over_limit(form, around) {
            return refuse(LIMIT, self.at);
        }
        if signal {
            let extra = form == Form::Local && self.locals >= header.locals as usize;
            let shape = extra && self.fault == Fault::ExtraLocalIsShape;
            return refuse(if shape { SHAPE } else { SIGNAL }, self.at);
        }
        let traps = around.traps + (self.fault == Fault::ExitAtTrapsAllowed) as usize;
        if form == Form::Exit && operand as usize >= traps {
            return refuse(EXIT, self.at);
        }
        Ok(())
    }

    /// Reads a statement and then its children directly after it.
    fn statement(&mut self, header: Header, around: Around) -> Result<Statement, Refusal> {
        let form = self.form()?;
        let operand = if form.has_operand() { self.word(self.at + 4) } else { 0 };
        self.test(header, form, operand, around)?;
        let (number, offset, first_pause) = (self.statements, self.at, self.stops);
        self.at += self.word(offset) as usize;
        self.statements += 1;
        self.pauses += (form == Form::Pause || form.stops() && self.fault == Fault::StopsAsPauses) as usize;
        self.stops += form.stops() as usize;
        self.locals += (form == Form::Local) as usize;
        let mut below = Around { path: around.path + 1, ..around };
        below.traps += (form == Form::Trap || form == Form::Abort && self.fault == Fault::AbortAsTrap) as usize;
        if form == Form::Local {
            below.locals += 1;
            below.scope |= 1u128.checked_shl(operand as u32).unwrap_or(0);
        }
        let mut parts = Vec::with_capacity(form.parts());
        for _ in 0..form.parts() {
            parts.push(self.statement(header, below)?);
        }
        let own = if form.stops() { pause_bit(first_pause) } else { 0 };
        let pauses = parts.iter().fold(own, |all, part| all | part.pauses);
        Ok(Statement { form, operand, parts, number, offset, end: self.at, first_pause, pauses })
    }

    /// SHAPE after the tree: bytes left, or fewer locals than declared.
    fn close(&self, header: Header) -> Result<(), Refusal> {
        let left = self.left();
        if (1..4).contains(&left) && self.fault == Fault::TrailingIsBroken {
            return refuse(BROKEN, self.at);
        }
        let extra = left > 0 && self.fault != Fault::TrailingAllowed;
        let fewer = self.locals < header.locals as usize && self.fault != Fault::FewerLocalsAllowed;
        if extra || fewer { refuse(SHAPE, self.at) } else { Ok(()) }
    }
}
