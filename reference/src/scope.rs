//! The two rules of a local signal. Each run of its body decides its status anew.

use crate::block::Statement;
use crate::fault::Fault;
use crate::met::{note, Met};
use crate::rules::Rules;
use crate::values::{Can, Event, Mark, Run, Status};

impl Rules {
    /// Must for a local: the body is first analysed with s unknown, which gives s its status.
    pub fn event_of_local(&self, p: &Statement, run: Run, e: Event) -> Event {
        let (s, body) = (p.operand, (&p.parts[0], run));
        // Outside its body a local is never known, but for the fault that keeps it over a restart.
        if e.status(s) == Status::Present {
            return e;
        }
        // If s is in the body's must, with s present.
        if self.must(body, e).has(s) && !self.planted(Fault::LocalNeverPresent) {
            note(Met::LocalPresent);
            return e.with_present(s);
        }
        if self.planted(Fault::LocalAbsentUnasked) {
            return e.with_absent(s);
        }
        // If s is not in the body's can under plus, with s absent.
        let mark = if self.planted(Fault::MustAsksCanUnderOpen) { Mark::Open } else { Mark::Plus };
        if !self.can(body, mark, e).has(s) && !self.planted(Fault::LocalNeverAbsent) {
            note(Met::LocalAbsent);
            return e.with_absent(s);
        }
        // Else with s unknown.
        note(Met::LocalUnknown);
        if self.planted(Fault::LocalTriedBothWays) { self.tried_both_ways(p, run, e) } else { e }
    }

    /// Can for a local, with the order and the marks of the three cases.
    pub fn can_local(&self, p: &Statement, run: Run, mark: Mark, e: Event) -> Can {
        note(if mark == Mark::Plus { Met::LocalUnderPlus } else { Met::LocalUnderOpen });
        let (s, body) = (p.operand, (&p.parts[0], run));
        let (mark, event) = if e.status(s) == Status::Present {
            (mark, e)
        } else if self.set_present(p, run, mark, e) {
            // If the mark is plus and s is in must, can under plus with s present.
            let open = self.planted(Fault::LocalPresentTakenOpen);
            (if open { Mark::Open } else { Mark::Plus }, e.with_present(s))
        } else if self.set_absent(p, run, mark, e) {
            // If s is not in the body's can under the mark at hand, can under that mark with s absent.
            (self.changed(mark, Fault::LocalAbsentTakenPlus, Fault::LocalAbsentTakenOpen), e.with_absent(s))
        } else {
            // Else under the same mark with s unknown.
            (self.changed(mark, Fault::LocalUnknownTakenPlus, Fault::LocalUnknownTakenOpen), e)
        };
        self.can(body, mark, event).without(s)
    }

    fn set_present(&self, p: &Statement, run: Run, mark: Mark, e: Event) -> bool {
        (mark == Mark::Plus || self.planted(Fault::LocalPresentUnderOpen))
            && !self.planted(Fault::LocalNeverPresent)
            && self.must((&p.parts[0], run), e).has(p.operand)
    }

    /// The absence test is under the mark at hand; the older rule asked under plus even where the mark is open.
    fn set_absent(&self, p: &Statement, run: Run, mark: Mark, e: Event) -> bool {
        let mark = if self.planted(Fault::AbsenceUnderPlus) { Mark::Plus } else { mark };
        !self.planted(Fault::LocalNeverAbsent) && !self.can((&p.parts[0], run), mark, e).has(p.operand)
    }

    fn changed(&self, mark: Mark, to_plus: Fault, to_open: Fault) -> Mark {
        if self.planted(to_plus) {
            Mark::Plus
        } else if self.planted(to_open) {
            Mark::Open
        } else {
            mark
        }
    }

    /// A fault: the only status that fits is kept.
    fn tried_both_ways(&self, p: &Statement, run: Run, e: Event) -> Event {
        let (s, body) = (p.operand, (&p.parts[0], run));
        let (with, without) = (self.must(body, e.with_present(s)), self.must(body, e.with_absent(s)));
        let fits_present = with.has(s) && with.code.is_some();
        let fits_absent = !without.has(s) && without.code.is_some();
        match (fits_present, fits_absent) {
            (true, false) => e.with_present(s),
            (false, true) => e.with_absent(s),
            _ => e,
        }
    }
}
