//! What the rules met in an instant, so that the cases can be counted by it.

use std::cell::Cell;

/// One thing that an evaluation can meet.
#[derive(Clone, Copy, PartialEq, Eq, Debug)]
pub enum Met {
    Plus,
    Open,
    LocalUnderPlus,
    LocalUnderOpen,
    LocalPresent,
    LocalAbsent,
    LocalUnknown,
    UnknownPresent,
    UnknownSuspend,
    Held,
    Restart,
    ScopeRestart,
}

thread_local! {
    static ALL: Cell<u32> = Cell::new(0);
}

pub fn note(met: Met) {
    ALL.with(|all| all.set(all.get() | 1 << met as u32));
}

/// All that was met since the last time, one bit for each.
pub fn taken() -> u32 {
    ALL.with(|all| all.replace(0))
}

pub fn holds(all: u32, met: Met) -> bool {
    all >> met as u32 & 1 == 1
}
