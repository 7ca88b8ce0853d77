//! Must and can in one instant, each rule as the document says it; the planted faults stand beside them.

use crate::block::{Form, Statement};
use crate::codes::{down, exit_code, maxima, members, pairwise, Depth};
use crate::fault::Fault;
use crate::met::{note, Met};
use crate::values::{signal_bit, Can, Event, Mark, Must, Part, Run, Status};

/// The rules, true ones where no fault is planted.
#[derive(Clone, Copy)]
pub struct Rules {
    pub fault: Fault,
}

impl Rules {
    pub fn planted(&self, fault: Fault) -> bool {
        self.fault == fault
    }

    /// What must be emitted and which code must be given under this event.
    pub fn must(&self, (p, run): Part, e: Event) -> Must {
        match p.form {
            Form::Nothing => Must::code(0),
            Form::Pause => Must::code(self.pause_code(run)),
            Form::Emit => Must { signals: signal_bit(p.operand), code: Some(0) },
            Form::Exit => Must::code(self.exit_code(p)),
            Form::Halt => Must::code(1),
            Form::Sustain => Must { signals: signal_bit(p.operand), code: Some(1) },
            Form::Await => self.must_await(p, run, e),
            Form::Abort => self.must_abort(p, run, e),
            Form::Present => self.must_present(p, run, e),
            Form::Suspend => self.must_suspend(p, run, e),
            Form::Sequence | Form::Loop => self.must_stages(p, run, e),
            Form::Parallel => self.must_parallel(p, run, e),
            Form::Trap => {
                // Signals as the body, codes down.
                let body = self.must((&p.parts[0], run), e);
                Must { code: body.code.map(|code| self.trap_code(code)), ..body }
            }
            Form::Local => {
                // Must of the body with the status that was found, without the local.
                let event = self.event_of_local(p, run, e);
                let body = self.must((&p.parts[0], run), event);
                if self.planted(Fault::LocalKeptOverRestart) { body } else { body.without(p.operand) }
            }
        }
    }

    /// What can be emitted and which codes can be given under this event and mark.
    pub fn can(&self, (p, run): Part, mark: Mark, e: Event) -> Can {
        note(if mark == Mark::Plus { Met::Plus } else { Met::Open });
        match p.form {
            Form::Nothing => Can::code(0),
            Form::Pause => Can::code(self.pause_code(run)),
            Form::Emit => Can { signals: signal_bit(p.operand), codes: 1 },
            Form::Exit => Can::code(self.exit_code(p)),
            Form::Halt => Can::code(1),
            Form::Sustain => Can { signals: signal_bit(p.operand), codes: 2 },
            Form::Await => self.can_await(p, run, e),
            Form::Abort => self.can_abort(p, run, mark, e),
            Form::Present => self.can_present(p, run, mark, e),
            Form::Suspend => self.can_suspend(p, run, mark, e),
            Form::Sequence | Form::Loop => self.can_stages(p, run, mark, e),
            Form::Parallel => self.can_parallel(p, run, mark, e),
            Form::Trap => {
                let body = self.can((&p.parts[0], run), mark, e);
                let codes = members(body.codes).iter().fold(0, |all, &code| all | 1 << self.trap_code(code));
                Can { codes, ..body }
            }
            Form::Local => self.can_local(p, run, mark, e),
        }
    }

    /// A started pause gives 1, a resumed one 0.
    fn pause_code(&self, run: Run) -> u32 {
        (run == Run::Started || self.planted(Fault::ResumedPauseStays)) as u32
    }

    /// An exit's code is its depth plus 2.
    fn exit_code(&self, p: &Statement) -> u32 {
        match self.fault {
            Fault::ExitCodeOneLess => p.operand as u32 + 1,
            Fault::ExitDepthIsCode => p.operand as u32,
            _ => exit_code(Depth(p.operand)),
        }
    }

    fn trap_code(&self, code: u32) -> u32 {
        match self.fault {
            Fault::TrapWithoutDown => code,
            Fault::TrapKeepsHigher if code > 2 => code,
            _ => down(code),
        }
    }

    /// The branch that runs: resumed the active one, without the test; started the one a known status chooses.
    pub fn branch<'a>(&self, p: &'a Statement, run: Run, e: Event) -> Option<Part<'a>> {
        let (then, other) = (&p.parts[0], &p.parts[1]);
        if let Run::Resumed(active) = run {
            if !self.planted(Fault::PresentTestedOnResume) {
                return Some((if then.holds(active) { then } else { other }, run));
            }
        }
        let chosen = match e.status(p.operand) {
            Status::Present if self.planted(Fault::BranchesSwapped) => other,
            Status::Absent if self.planted(Fault::BranchesSwapped) => then,
            Status::Present => then,
            Status::Absent => other,
            Status::Unknown => return None,
        };
        Some((chosen, run_of(chosen, run)))
    }

    /// Unknown: must is empty with no code.
    fn must_present(&self, p: &Statement, run: Run, e: Event) -> Must {
        if let Some(branch) = self.branch(p, run, e) {
            return self.must(branch, e);
        }
        if self.planted(Fault::UnknownPresentTakesCommon) {
            let (one, other) = (self.must((&p.parts[0], run), e), self.must((&p.parts[1], run), e));
            let code = if one.code == other.code { one.code } else { None };
            return Must { signals: one.signals & other.signals, code };
        }
        Must::nothing_known()
    }

    /// Unknown: can is the union of both branches with open mark.
    fn can_present(&self, p: &Statement, run: Run, mark: Mark, e: Event) -> Can {
        if let Some(branch) = self.branch(p, run, e) {
            return self.can(branch, mark, e);
        }
        note(Met::UnknownPresent);
        let mark = if self.planted(Fault::UnknownPresentKeepsMark) { mark } else { Mark::Open };
        let (then, other) = (&p.parts[0], &p.parts[1]);
        let then = self.can((then, run_of(then, run)), mark, e);
        if self.planted(Fault::UnknownPresentThenOnly) {
            return then;
        }
        then.union(self.can((other, run_of(other, run)), mark, e))
    }

    /// The status that decides a suspend; a started one is as its body, which is as if absent.
    pub fn suspend_status(&self, p: &Statement, run: Run, e: Event) -> Status {
        let started = run == Run::Started && !self.planted(Fault::SuspendTestedAtStart);
        if started || self.planted(Fault::SuspendIgnored) {
            return Status::Absent;
        }
        match e.status(p.operand) {
            Status::Present if self.planted(Fault::SuspendTurnedRound) => Status::Absent,
            Status::Absent if self.planted(Fault::SuspendTurnedRound) => Status::Present,
            status => status,
        }
    }

    /// Present gives code 1 and no signal; absent, the body resumed; unknown, must is empty.
    fn must_suspend(&self, p: &Statement, run: Run, e: Event) -> Must {
        let body = (&p.parts[0], run);
        match self.suspend_status(p, run, e) {
            Status::Present if self.planted(Fault::SuspendedEmits) => Must { code: Some(1), ..self.must(body, e) },
            Status::Present => {
                note(Met::Held);
                Must::code(1)
            }
            Status::Absent => self.must(body, e),
            Status::Unknown if self.planted(Fault::UnknownSuspendRuns) => self.must(body, e),
            Status::Unknown => Must::nothing_known(),
        }
    }

    /// Unknown: can is the body's under open mark, and code 1 besides.
    fn can_suspend(&self, p: &Statement, run: Run, mark: Mark, e: Event) -> Can {
        let body = (&p.parts[0], run);
        match self.suspend_status(p, run, e) {
            Status::Present if self.planted(Fault::SuspendedEmits) => Can { codes: 2, ..self.can(body, mark, e) },
            Status::Present => Can::code(1),
            Status::Absent => self.can(body, mark, e),
            Status::Unknown if self.planted(Fault::UnknownSuspendWithoutOne) => self.can(body, Mark::Open, e),
            Status::Unknown => {
                note(Met::UnknownSuspend);
                let mark = if self.planted(Fault::UnknownSuspendKeepsMark) { mark } else { Mark::Open };
                self.can(body, mark, e).union(Can::code(1))
            }
        }
    }

    /// The status that decides an await or an abort; started, neither looks at its signal.
    fn waits_for(&self, p: &Statement, run: Run, e: Event, early: Fault) -> Status {
        let started = run == Run::Started && !self.planted(early);
        if started { Status::Absent } else { e.status(p.operand) }
    }

    /// Resumed: present gives 0, absent 1; unknown, must is empty.
    fn must_await(&self, p: &Statement, run: Run, e: Event) -> Must {
        match self.waits_for(p, run, e, Fault::AwaitTestsAtStart) {
            Status::Present => Must::code(0),
            Status::Absent => Must::code(1),
            Status::Unknown => Must::nothing_known(),
        }
    }

    fn can_await(&self, p: &Statement, run: Run, e: Event) -> Can {
        match self.waits_for(p, run, e, Fault::AwaitTestsAtStart) {
            Status::Present => Can::code(0),
            Status::Unknown if !self.planted(Fault::AwaitNeverEnds) => Can::code(0).union(Can::code(1)),
            _ => Can::code(1),
        }
    }

    /// Resumed: present gives code 0 and no signal; absent, the body; unknown, must is empty.
    fn must_abort(&self, p: &Statement, run: Run, e: Event) -> Must {
        match self.waits_for(p, run, e, Fault::AbortTestsAtStart) {
            Status::Present => Must::code(self.planted(Fault::AbortHolds) as u32),
            Status::Absent => self.must((&p.parts[0], run), e),
            Status::Unknown => Must::nothing_known(),
        }
    }

    /// Unknown: can is the body's under open mark, and the codes 0 and 1 besides.
    fn can_abort(&self, p: &Statement, run: Run, mark: Mark, e: Event) -> Can {
        let body = (&p.parts[0], run);
        match self.waits_for(p, run, e, Fault::AbortTestsAtStart) {
            Status::Present => Can::code(self.planted(Fault::AbortHolds) as u32),
            Status::Absent => self.can(body, mark, e),
            Status::Unknown => {
                let mark = if self.planted(Fault::AbortKeepsMark) { mark } else { Mark::Open };
                let besides = match self.fault {
                    Fault::AbortCanWithoutOne => 1,
                    Fault::AbortCanWithoutZero => 2,
                    _ => 3,
                };
                self.can(body, mark, e).union(Can { signals: 0, codes: besides })
            }
        }
    }

    /// A sequence's or a loop's first stage, and the second where it goes on after a 0.
    /// A started loop is as its body; a resumed one goes on with the body started afresh.
    pub fn stages<'a>(&self, p: &'a Statement, run: Run) -> (Part<'a>, Option<Part<'a>>) {
        let first = &p.parts[0];
        if p.form == Form::Loop {
            let again = run != Run::Started && !self.planted(Fault::LoopEnds);
            return ((first, run), if again { Some((first, Run::Started)) } else { None });
        }
        let second = &p.parts[1];
        match run {
            Run::Resumed(active) if !first.holds(active) => ((second, run), None),
            Run::Resumed(_) if self.planted(Fault::SecondNotStarted) => ((first, run), None),
            _ => ((first, run), Some((second, Run::Started))),
        }
    }

    /// The second stage counts for must only if the first's must code is 0.
    fn must_stages(&self, p: &Statement, run: Run, e: Event) -> Must {
        let (first, second) = self.stages(p, run);
        let one = self.must(first, e);
        match second {
            Some(second) if one.code == Some(0) || self.planted(Fault::SecondMustAlways) => {
                if p.form == Form::Loop {
                    note(Met::Restart);
                    if declared(p) != 0 {
                        note(Met::ScopeRestart);
                    }
                }
                let other = self.must(second, self.event_of_second(p, one, e));
                let code = if one.code == Some(0) { other.code } else { one.code };
                Must { signals: one.signals | other.signals, code }
            }
            _ => one,
        }
    }

    /// The second stage counts for can if 0 is in the first's codes, which is then removed.
    fn can_stages(&self, p: &Statement, run: Run, mark: Mark, e: Event) -> Can {
        let (first, second) = self.stages(p, run);
        let one = self.can(first, mark, e);
        match second {
            Some(second) if one.codes & 1 == 1 || self.planted(Fault::SecondCanAlways) => {
                // Under open the first's must is asked by no rule.
                let asked = mark == Mark::Plus || self.planted(Fault::LocalKeptOverRestart);
                let must = if asked { self.must(first, e) } else { Must::nothing_known() };
                let mark = self.mark_of_second(p.form, must, mark);
                let other = self.can(second, mark, self.event_of_second(p, must, e));
                let codes = if self.planted(Fault::ZeroStays) { one.codes } else { one.codes & !1 };
                Can { codes, ..one }.union(other)
            }
            _ => one,
        }
    }

    /// Plus only if the mark was plus and the first must give 0; a loop's restart goes the same way.
    fn mark_of_second(&self, form: Form, first: Must, mark: Mark) -> Mark {
        match (self.fault, form) {
            (Fault::SecondAlwaysPlus, Form::Sequence) | (Fault::RestartAlwaysPlus, Form::Loop) => Mark::Plus,
            (Fault::SecondAlwaysOpen, Form::Sequence) | (Fault::RestartAlwaysOpen, Form::Loop) => Mark::Open,
            (Fault::SecondUnderOldMark, Form::Sequence) | (Fault::RestartUnderOldMark, Form::Loop) => mark,
            _ if mark == Mark::Plus && first.code == Some(0) => Mark::Plus,
            _ => Mark::Open,
        }
    }

    /// A restart begins its locals anew, so it sees the same event; one fault keeps those found present.
    pub fn event_of_second(&self, p: &Statement, first: Must, e: Event) -> Event {
        if p.form == Form::Loop && self.planted(Fault::LocalKeptOverRestart) {
            return Event { present: e.present | first.signals & declared(p), ..e };
        }
        e
    }

    /// The arms that run: both when started, the active ones when resumed.
    pub fn arms<'a>(&self, p: &'a Statement, run: Run) -> [Option<Part<'a>>; 2] {
        let arm = |part: &'a Statement| match run {
            Run::Resumed(active) if !part.holds(active) => {
                if self.planted(Fault::IdleArmRestarts) { Some((part, Run::Started)) } else { None }
            }
            _ => Some((part, run)),
        };
        [arm(&p.parts[0]), arm(&p.parts[1])]
    }

    /// Union of signals, greater code; no code on one side gives no code; an idle arm gives 0.
    fn must_parallel(&self, p: &Statement, run: Run, e: Event) -> Must {
        let [one, other] = self.arms(p, run);
        let must = |arm: Option<Part>| arm.map_or(Must::code(0), |arm| self.must(arm, e));
        let (one, other) = (must(one), must(other));
        let code = match (one.code, other.code) {
            (Some(a), Some(b)) if self.planted(Fault::ParallelMinima) => Some(a.min(b)),
            (Some(a), Some(b)) => Some(a.max(b)),
            (a, b) if self.planted(Fault::ParallelOneSide) => a.or(b),
            _ => None,
        };
        Must { signals: one.signals | other.signals, code }
    }

    /// Union of signals, maxima of codes.
    fn can_parallel(&self, p: &Statement, run: Run, mark: Mark, e: Event) -> Can {
        let [one, other] = self.arms(p, run);
        let can = |arm: Option<Part>| arm.map_or(Can::code(0), |arm| self.can(arm, mark, e));
        let (one, other) = (can(one), can(other));
        let codes = match self.fault {
            Fault::ParallelUnion => one.codes | other.codes,
            Fault::ParallelMinima => pairwise(one.codes, other.codes, |a, b| a.min(b)),
            _ => maxima(one.codes, other.codes),
        };
        Can { signals: one.signals | other.signals, codes }
    }
}

/// How a part runs when its whole runs so: a part without an active pause can only be started.
fn run_of(part: &Statement, run: Run) -> Run {
    match run {
        Run::Resumed(active) if !part.holds(active) => Run::Started,
        _ => run,
    }
}

/// The locals declared in a statement.
fn declared(p: &Statement) -> u64 {
    let own = if p.form == Form::Local { signal_bit(p.operand) } else { 0 };
    p.parts.iter().fold(own, |all, part| all | declared(part))
}
