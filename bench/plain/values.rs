//! Events, and what must and can give.

use super::codes::{maxima, ZERO};

/// Signals that are known present and known absent; the others are unknown.
#[derive(Clone, Copy, PartialEq, Eq)]
pub struct Event {
    pub present: u64,
    pub absent: u64,
}

impl Event {
    pub fn with_present(self, s: u16) -> Event {
        Event { present: self.present | 1 << s, absent: self.absent }
    }

    pub fn with_absent(self, s: u16) -> Event {
        Event { present: self.present, absent: self.absent | 1 << s }
    }

    pub fn is_present(self, s: u16) -> bool {
        self.present >> s & 1 == 1
    }

    pub fn is_absent(self, s: u16) -> bool {
        self.absent >> s & 1 == 1
    }
}

/// Signals, and a set of codes; must has one code at most.
#[derive(Clone, Copy)]
pub struct Given {
    pub signals: u64,
    pub codes: u32,
}

impl Given {
    pub fn code(codes: u32) -> Given {
        Given { signals: 0, codes }
    }

    pub fn has(self, s: u16) -> bool {
        self.signals >> s & 1 == 1
    }

    pub fn without(self, s: u16) -> Given {
        Given { signals: self.signals & !(1 << s), codes: self.codes }
    }

    pub fn union(self, other: Given) -> Given {
        Given { signals: self.signals | other.signals, codes: self.codes | other.codes }
    }

    /// As one side of a parallel whose other side gives `other`.
    pub fn beside(self, other: Given) -> Given {
        Given { signals: self.signals | other.signals, codes: maxima(self.codes, other.codes) }
    }

    /// As the first part of a sequence, with 0 among its codes, whose second part gives `other`.
    pub fn then(self, other: Given) -> Given {
        Given { signals: self.signals | other.signals, codes: self.codes & !ZERO | other.codes }
    }
}
