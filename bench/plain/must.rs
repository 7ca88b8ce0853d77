//! Must in one instant.

use super::codes::{code_of, down, ONE, ZERO};
use super::table::Table;
use super::values::{Event, Given};

impl Table {
    /// What must be emitted, and the code that must be given.
    pub fn must(&self, at: usize, resumed: bool, e: Event) -> Given {
        let row = self.rows[at];
        match row.kind {
            16 => Given::code(ZERO),
            17 => Given::code(if resumed { ZERO } else { ONE }),
            18 => Given { signals: 1 << row.operand, codes: ZERO },
            25 => Given::code(code_of(row.operand)),
            19 => match self.branch(at, resumed, e) {
                Some(branch) => self.must(branch, resumed, e),
                None => Given::code(0),
            },
            20 if resumed && e.is_present(row.operand) => Given::code(ONE),
            20 if resumed && !e.is_absent(row.operand) => Given::code(0),
            20 => self.must(at + 1, resumed, e),
            21 if resumed && !self.rows[at + 1].active => self.must(self.second(at), true, e),
            21 => self.must_in_turn(at + 1, resumed, self.second(at), e),
            22 if resumed => self.must_in_turn(at + 1, true, at + 1, e),
            22 => self.must(at + 1, false, e),
            23 => self.must_arm(at + 1, resumed, e).beside(self.must_arm(self.second(at), resumed, e)),
            24 => {
                let body = self.must(at + 1, resumed, e);
                Given { signals: body.signals, codes: down(body.codes) }
            }
            _ => self.must_local(at, resumed, e),
        }
    }

    /// An arm of a resumed parallel without an active pause gives 0.
    fn must_arm(&self, at: usize, resumed: bool, e: Event) -> Given {
        if resumed && !self.rows[at].active {
            return Given::code(ZERO);
        }
        self.must(at, resumed, e)
    }

    /// A sequence, or a resumed loop and its body afresh: the second part counts only if the first must give 0.
    fn must_in_turn(&self, first: usize, resumed: bool, second: usize, e: Event) -> Given {
        let one = self.must(first, resumed, e);
        if one.codes != ZERO {
            return one;
        }
        one.then(self.must(second, false, e))
    }

    /// Present if it is in the body's must, absent if it is not in the body's can under plus, else unknown.
    fn must_local(&self, at: usize, resumed: bool, e: Event) -> Given {
        let s = self.rows[at].operand;
        let unknown = self.must(at + 1, resumed, e);
        let body = if unknown.has(s) {
            self.must(at + 1, resumed, e.with_present(s))
        } else if !self.can(at + 1, resumed, true, e).has(s) {
            self.must(at + 1, resumed, e.with_absent(s))
        } else {
            unknown
        };
        body.without(s)
    }
}
