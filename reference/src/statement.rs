//! Statements: their forms and the tree of a block that was read.

/// A statement without its children: form and operand. A block is a list of them in preorder.
pub type Token = (Form, u16);

/// The eleven statements, in the order of their kind numbers from 16 on, and the four of edition 2, from 32 on.
#[derive(Clone, Copy, PartialEq, Eq, Debug, Hash)]
pub enum Form {
    Nothing,
    Pause,
    Emit,
    Present,
    Suspend,
    Sequence,
    Loop,
    Parallel,
    Trap,
    Exit,
    Local,
    Halt,
    Sustain,
    Await,
    Abort,
}

/// Those that edition 2 adds.
pub const EVERYDAY: [Form; 4] = [Form::Halt, Form::Sustain, Form::Await, Form::Abort];

pub const FORMS: [Form; 11] = [
    Form::Nothing,
    Form::Pause,
    Form::Emit,
    Form::Present,
    Form::Suspend,
    Form::Sequence,
    Form::Loop,
    Form::Parallel,
    Form::Trap,
    Form::Exit,
    Form::Local,
];

impl Form {
    pub fn of_kind(kind: u16) -> Option<Form> {
        match kind {
            16..=26 => Some(FORMS[kind as usize - 16]),
            _ => None,
        }
    }

    /// The form of a kind in edition 2.
    pub fn of_wide_kind(kind: u16) -> Option<Form> {
        match kind {
            32..=35 => Some(EVERYDAY[kind as usize - 32]),
            _ => Form::of_kind(kind),
        }
    }

    pub fn kind(self) -> u16 {
        let number = self as u16;
        if EVERYDAY.contains(&self) { number - Form::Halt as u16 + 32 } else { number + 16 }
    }

    /// Whether the operand, if there is one, is a signal.
    pub fn names_signal(self) -> bool {
        matches!(
            self,
            Form::Emit | Form::Present | Form::Suspend | Form::Local | Form::Sustain | Form::Await | Form::Abort
        )
    }

    /// Whether a run may stop at it: a pause, and in edition 2 what waits.
    pub fn stops(self) -> bool {
        matches!(self, Form::Pause | Form::Halt | Form::Sustain | Form::Await)
    }

    pub fn has_operand(self) -> bool {
        self.names_signal() || self == Form::Exit
    }

    pub fn length(self) -> usize {
        if self.has_operand() { 6 } else { 4 }
    }

    /// The number of children.
    pub fn parts(self) -> usize {
        match self {
            Form::Nothing | Form::Pause | Form::Emit | Form::Exit | Form::Halt | Form::Sustain | Form::Await => 0,
            Form::Suspend | Form::Loop | Form::Trap | Form::Local | Form::Abort => 1,
            Form::Present | Form::Sequence | Form::Parallel => 2,
        }
    }
}

/// A statement of a read block with all that is below it.
#[derive(Clone, Debug)]
pub struct Statement {
    pub form: Form,
    /// A signal or an exit's depth; 0 where there is none.
    pub operand: u16,
    pub parts: Vec<Statement>,
    pub number: usize,
    /// Its bytes in the block, with all below it.
    pub offset: usize,
    pub end: usize,
    /// The number of the first pause (in edition 2, of the first stop) at or after it in preorder; a pause's own number.
    pub first_pause: usize,
    /// One bit for each pause in it.
    pub pauses: u128,
}

impl Statement {
    /// A statement holds an active pause when one of its pauses is in the set.
    pub fn holds(&self, active: u128) -> bool {
        self.pauses & active != 0
    }

    /// A lone nothing, as which a finished block runs.
    pub fn lone_nothing() -> Statement {
        Statement {
            form: Form::Nothing, operand: 0, parts: Vec::new(), number: 0, offset: 0, end: 0,
            first_pause: 0, pauses: 0,
        }
    }

    /// The statement with this number, if it is here.
    pub fn find(&self, number: usize) -> Option<&Statement> {
        if self.number == number {
            return Some(self);
        }
        self.parts.iter().find_map(|part| part.find(number))
    }

    /// This statement and all below it in preorder.
    pub fn tokens(&self) -> Vec<Token> {
        let mut tokens = vec![(self.form, self.operand)];
        for part in &self.parts {
            tokens.extend(part.tokens());
        }
        tokens
    }
}

/// Bit n for pause n; a pause past the last bit has none.
pub fn pause_bit(pause: usize) -> u128 {
    1u128.checked_shl(pause as u32).unwrap_or(0)
}
