//! What must and can work on: events, marks, runs, and what they give.

use crate::block::Statement;

#[derive(Clone, Copy, PartialEq, Eq, Debug)]
pub enum Status {
    Present,
    Absent,
    Unknown,
}

/// Plus: surely executed. Open: perhaps not.
#[derive(Clone, Copy, PartialEq, Eq, Debug)]
pub enum Mark {
    Plus,
    Open,
}

/// How a statement runs: started, or resumed from the active pauses it holds.
#[derive(Clone, Copy, PartialEq, Eq, Debug)]
pub enum Run {
    Started,
    Resumed(u128),
}

/// A statement together with how it runs.
pub type Part<'a> = (&'a Statement, Run);

/// Bit n for signal n; a signal past the last bit has none.
pub fn signal_bit(signal: u16) -> u64 {
    1u64.checked_shl(signal as u32).unwrap_or(0)
}

/// The bits of `count` signals from `first` on.
pub fn signal_bits(first: u16, count: u16) -> u64 {
    (0..64).filter(|&s| s >= first as u32 && s < first as u32 + count as u32).fold(0, |all, s| all | 1 << s)
}

/// What is heard of the inputs: some present, some absent, the rest unknown.
#[derive(Clone, Copy, PartialEq, Eq, Debug)]
pub struct Heard {
    pub present: u64,
    pub absent: u64,
}

impl Heard {
    /// No unknowns: of so many inputs, all that are not in the set are absent.
    pub fn all(inputs: u64, count: u16) -> Heard {
        Heard { present: inputs, absent: signal_bits(0, count) & !inputs }
    }
}

/// Gives each signal present, absent or unknown.
#[derive(Clone, Copy, PartialEq, Eq, Debug)]
pub struct Event {
    pub present: u64,
    pub absent: u64,
}

impl Event {
    pub fn status(self, signal: u16) -> Status {
        let bit = signal_bit(signal);
        if self.present & bit != 0 {
            Status::Present
        } else if self.absent & bit != 0 {
            Status::Absent
        } else {
            Status::Unknown
        }
    }

    pub fn with_present(self, signal: u16) -> Event {
        Event { present: self.present | signal_bit(signal), ..self }
    }

    pub fn with_absent(self, signal: u16) -> Event {
        Event { absent: self.absent | signal_bit(signal), ..self }
    }
}

/// The signals that must be emitted and the code that must be given, if one is known.
#[derive(Clone, Copy, PartialEq, Eq, Debug)]
pub struct Must {
    pub signals: u64,
    pub code: Option<u32>,
}

impl Must {
    pub fn code(code: u32) -> Must {
        Must { signals: 0, code: Some(code) }
    }

    pub fn nothing_known() -> Must {
        Must { signals: 0, code: None }
    }

    pub fn has(self, signal: u16) -> bool {
        self.signals & signal_bit(signal) != 0
    }

    pub fn without(self, signal: u16) -> Must {
        Must { signals: self.signals & !signal_bit(signal), ..self }
    }
}

/// The signals that can be emitted and the codes that can be given.
#[derive(Clone, Copy, PartialEq, Eq, Debug)]
pub struct Can {
    pub signals: u64,
    pub codes: u32,
}

impl Can {
    pub fn code(code: u32) -> Can {
        Can { signals: 0, codes: 1 << code }
    }

    pub fn has(self, signal: u16) -> bool {
        self.signals & signal_bit(signal) != 0
    }

    pub fn without(self, signal: u16) -> Can {
        Can { signals: self.signals & !signal_bit(signal), ..self }
    }

    pub fn union(self, other: Can) -> Can {
        Can { signals: self.signals | other.signals, codes: self.codes | other.codes }
    }
}
