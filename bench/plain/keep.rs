//! The pauses that are kept, once every output is settled: one execution by the statuses that must and can give the locals.

use super::codes::{code_of, down, maxima, ONE, ZERO};
use super::table::Table;
use super::values::Event;

#[derive(Clone, Copy)]
pub struct Kept {
    pub codes: u32,
    pub pauses: u128,
}

impl Kept {
    fn none(codes: u32) -> Kept {
        Kept { codes, pauses: 0 }
    }

    /// As one side of a parallel; with a code other than 1 no pause is kept.
    fn beside(self, other: Kept) -> Kept {
        let codes = maxima(self.codes, other.codes);
        Kept { codes, pauses: if codes == ONE { self.pauses | other.pauses } else { 0 } }
    }
}

impl Table {
    pub fn keep(&self, at: usize, resumed: bool, active: u128, e: Event) -> Kept {
        let row = self.rows[at];
        match row.kind {
            17 if !resumed => Kept { codes: ONE, pauses: 1 << row.operand },
            16..=18 => Kept::none(ZERO),
            25 => Kept::none(code_of(row.operand)),
            19 => match self.branch(at, resumed, e) {
                Some(branch) => self.keep(branch, resumed, active, e),
                None => Kept::none(0),
            },
            20 if resumed && e.is_present(row.operand) => Kept { codes: ONE, pauses: active & self.pauses_in(at) },
            20 if resumed && !e.is_absent(row.operand) => Kept::none(0),
            20 => self.keep(at + 1, resumed, active, e),
            21 if resumed && !self.rows[at + 1].active => self.keep(self.second(at), true, active, e),
            21 => self.keep_in_turn(at + 1, resumed, self.second(at), active, e),
            22 if resumed => self.keep_in_turn(at + 1, true, at + 1, active, e),
            22 => self.keep(at + 1, false, active, e),
            23 => self.keep_arm(at + 1, resumed, active, e).beside(self.keep_arm(self.second(at), resumed, active, e)),
            24 => {
                let body = self.keep(at + 1, resumed, active, e);
                Kept { codes: down(body.codes), pauses: body.pauses }
            }
            _ => self.keep(at + 1, resumed, active, self.settled(at, resumed, e)),
        }
    }

    fn keep_arm(&self, at: usize, resumed: bool, active: u128, e: Event) -> Kept {
        if resumed && !self.rows[at].active {
            return Kept::none(ZERO);
        }
        self.keep(at, resumed, active, e)
    }

    /// Where the first part gives 0 it keeps no pause, and the second part alone counts.
    fn keep_in_turn(&self, first: usize, resumed: bool, second: usize, active: u128, e: Event) -> Kept {
        let one = self.keep(first, resumed, active, e);
        if one.codes != ZERO {
            return one;
        }
        self.keep(second, false, active, e)
    }

    /// The event of a local's body.
    fn settled(&self, at: usize, resumed: bool, e: Event) -> Event {
        let s = self.rows[at].operand;
        if self.must(at + 1, resumed, e).has(s) {
            e.with_present(s)
        } else if !self.can(at + 1, resumed, true, e).has(s) {
            e.with_absent(s)
        } else {
            e
        }
    }

    fn pauses_in(&self, at: usize) -> u128 {
        let rows = &self.rows[at..at + usize::from(self.rows[at].size)];
        rows.iter().filter(|row| row.kind == 17).fold(0, |all, row| all | 1 << row.operand)
    }
}
