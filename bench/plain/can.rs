//! Can in one instant, under the mark plus or open.

use super::codes::{code_of, down, ONE, ZERO};
use super::table::Table;
use super::values::{Event, Given};

impl Table {
    /// What can be emitted, and the codes that can be given.
    pub fn can(&self, at: usize, resumed: bool, plus: bool, e: Event) -> Given {
        let row = self.rows[at];
        match row.kind {
            16 => Given::code(ZERO),
            17 => Given::code(if resumed { ZERO } else { ONE }),
            18 => Given { signals: 1 << row.operand, codes: ZERO },
            25 => Given::code(code_of(row.operand)),
            19 => match self.branch(at, resumed, e) {
                Some(branch) => self.can(branch, resumed, plus, e),
                None => self.can(at + 1, false, false, e).union(self.can(self.second(at), false, false, e)),
            },
            20 if resumed && e.is_present(row.operand) => Given::code(ONE),
            20 if resumed && !e.is_absent(row.operand) => self.can(at + 1, true, false, e).union(Given::code(ONE)),
            20 => self.can(at + 1, resumed, plus, e),
            21 if resumed && !self.rows[at + 1].active => self.can(self.second(at), true, plus, e),
            21 => self.can_in_turn(at + 1, resumed, self.second(at), plus, e),
            22 if resumed => self.can_in_turn(at + 1, true, at + 1, plus, e),
            22 => self.can(at + 1, false, plus, e),
            23 => self.can_arm(at + 1, resumed, plus, e).beside(self.can_arm(self.second(at), resumed, plus, e)),
            24 => {
                let body = self.can(at + 1, resumed, plus, e);
                Given { signals: body.signals, codes: down(body.codes) }
            }
            _ => self.can_local(at, resumed, plus, e),
        }
    }

    /// An arm of a resumed parallel without an active pause gives 0.
    fn can_arm(&self, at: usize, resumed: bool, plus: bool, e: Event) -> Given {
        if resumed && !self.rows[at].active {
            return Given::code(ZERO);
        }
        self.can(at, resumed, plus, e)
    }

    /// A sequence, or a resumed loop and its body afresh: the second part counts if 0 is in the first's codes, and its mark is plus
    /// only if the mark was plus and the first must give 0.
    fn can_in_turn(&self, first: usize, resumed: bool, second: usize, plus: bool, e: Event) -> Given {
        let one = self.can(first, resumed, plus, e);
        if one.codes & ZERO == 0 {
            return one;
        }
        let still_plus = plus && self.must(first, resumed, e).codes == ZERO;
        one.then(self.can(second, false, still_plus, e))
    }

    /// Present if the mark is plus and it is in the body's must, absent if it is not in the body's can under the mark at hand, else unknown.
    fn can_local(&self, at: usize, resumed: bool, plus: bool, e: Event) -> Given {
        let s = self.rows[at].operand;
        if plus && self.must(at + 1, resumed, e).has(s) {
            return self.can(at + 1, resumed, true, e.with_present(s)).without(s);
        }
        let unknown = self.can(at + 1, resumed, plus, e);
        let body = if unknown.has(s) { unknown } else { self.can(at + 1, resumed, plus, e.with_absent(s)) };
        body.without(s)
    }
}
