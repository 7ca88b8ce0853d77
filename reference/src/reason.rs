//! Say why: an undecided test of a refused instant, an executed emit of a present output, what kept an emit from being executed.

use std::collections::BTreeSet;
use std::convert::TryFrom;

use crate::block::{Block, Form, Statement};
use crate::fault::Fault;
use crate::reaction::{begin_heard, Phase};
use crate::rules::Rules;
use crate::state::{prepare, Answer, Told, INDEX, INPUT, NOT_CONSTRUCTIVE, QUESTION};
use crate::values::{signal_bit, Event, Heard, Part, Run, Status};

/// Why was the instant refused; why is this output present; why was this emit not executed.
#[derive(Clone, Copy, PartialEq, Eq, Debug)]
pub enum Asked {
    Refused,
    Present(u64),
    NotExecuted(u64),
}

impl Asked {
    /// Which question, and what it is about; 0 where there is nothing.
    pub fn numbers(self) -> (u64, u64) {
        match self {
            Asked::Refused => (0, 0),
            Asked::Present(signal) => (1, signal),
            Asked::NotExecuted(statement) => (2, statement),
        }
    }

    pub fn of_numbers(question: u64, about: u64) -> Option<Asked> {
        match question {
            0 => Some(Asked::Refused),
            1 => Some(Asked::Present(about)),
            2 => Some(Asked::NotExecuted(about)),
            _ => None,
        }
    }
}

/// What must be reached in the final round, by statement numbers, and the tests among it whose signal is undecided there.
#[derive(Clone, Default, PartialEq, Eq, Debug)]
pub struct Reached {
    pub all: BTreeSet<usize>,
    pub undecided: BTreeSet<usize>,
    /// Those that are reached in two runs, one resumed and one started, or twice started.
    pub twice: BTreeSet<usize>,
}

/// The call: as the instant's 1 to 11, then 16 where the thing asked about is not so. Nothing lent is written.
pub fn reason(block: &[u8], state: &[u8], heard: Heard, asked: Asked, fault: Fault) -> Answer {
    let (block, phase, heard) = match prepare(block, state, Told::Two(heard), None, fault) {
        Err(answer) if answer.number == INPUT && fault == Fault::QuestionBeforeInput && asked == Asked::Refused => {
            return Answer { number: QUESTION, ..Answer::default() };
        }
        Err(answer) => return answer,
        Ok(all) => all,
    };
    match named(&block, phase, heard, asked, fault) {
        Some(statement) => Answer { statement, ..Answer::default() },
        None => Answer { number: turned_down(&block, phase, heard, asked, fault), ..Answer::default() },
    }
}

/// QUESTION, or what a fault gives in its place.
fn turned_down(block: &Block, phase: Phase, heard: Heard, asked: Asked, fault: Fault) -> u16 {
    let refused = Rules { fault: Fault::None }.react_heard(block, phase, heard).code.is_none();
    match asked {
        Asked::NotExecuted(n) if fault == Fault::QuestionIsIndex && n >= block.statements as u64 => INDEX,
        Asked::Present(_) | Asked::NotExecuted(_) if fault == Fault::QuestionIsThirteen && refused => NOT_CONSTRUCTIVE,
        _ => QUESTION,
    }
}

/// The statement that the answer names, if the thing asked about is so.
fn named(block: &Block, phase: Phase, heard: Heard, asked: Asked, fault: Fault) -> Option<usize> {
    let rules = Rules { fault: Fault::None };
    let reaction = rules.react_heard(block, phase, heard);
    let reached = reached(block, phase, heard, fault);
    let answered = reaction.code.is_some() || fault == Fault::RefusedHasReasons;
    match asked {
        Asked::Refused if reaction.code.is_some() => None,
        Asked::Refused if fault == Fault::HighestTest => reached.undecided.iter().next_back().copied(),
        Asked::Refused => reached.undecided.iter().next().copied(),
        Asked::Present(n) => {
            let (first, last) = (block.header.inputs as u64, (block.header.inputs + block.header.outputs) as u64);
            let output = first <= n && n < last || fault == Fault::LocalIsAsked && last <= n && n < 64;
            let s = n as u16;
            let present = output && (reaction.present & signal_bit(s) != 0 || n >= last);
            if answered && present { lowest_emit(block, s, &reached, fault) } else { None }
        }
        Asked::NotExecuted(n) => {
            let emit = block.root.find(usize::try_from(n).ok()?)?.form == Form::Emit || fault == Fault::AnyStatementAsked;
            if answered && emit { kept_from(block, phase, n as usize, &reached, fault) } else { None }
        }
    }
}

/// The lowest emit of a signal that was executed.
fn lowest_emit(block: &Block, s: u16, reached: &Reached, fault: Fault) -> Option<usize> {
    let mut emits = Vec::new();
    all_emits(&block.root, s, &mut emits);
    emits.retain(|n| reached.all.contains(n) || fault == Fault::AnyEmitNamed);
    if fault == Fault::HighestEmit { emits.last().copied() } else { emits.first().copied() }
}

fn all_emits(p: &Statement, s: u16, found: &mut Vec<usize>) {
    if p.form == Form::Emit && p.operand == s {
        found.push(p.number);
    }
    p.parts.iter().for_each(|part| all_emits(part, s, found));
}

/// The topmost statement on the way to an emit that was not executed; none if all of them were.
fn kept_from(block: &Block, phase: Phase, n: usize, reached: &Reached, fault: Fault) -> Option<usize> {
    let mut way = Vec::new();
    way_to(&block.root, n, &mut way);
    let top = way.iter().position(|number| !reached.all.contains(number))?;
    match fault {
        Fault::EmitItselfNamed => way.last().copied(),
        Fault::LastExecutedNamed => Some(way[top.saturating_sub(1)]),
        Fault::FinishedNamesEmit if phase == Phase::Finished => way.last().copied(),
        _ => Some(way[top]),
    }
}

/// The numbers from the root down to a statement; false if it is not below.
fn way_to(p: &Statement, n: usize, way: &mut Vec<usize>) -> bool {
    way.push(p.number);
    if p.number == n || p.parts.iter().any(|part| way_to(part, n, way)) {
        return true;
    }
    way.pop();
    false
}

/// What must be reached in the final round; in a finished block nothing is.
pub fn reached(block: &Block, phase: Phase, heard: Heard, fault: Fault) -> Reached {
    let rules = Rules { fault: Fault::None };
    let mut reached = Reached::default();
    let run = match phase {
        Phase::Fresh => Run::Started,
        Phase::Running(active) => Run::Resumed(active),
        Phase::Finished => return reached,
    };
    let (begin, reaction) = (begin_heard(heard), rules.react_heard(block, phase, heard));
    let e = Event { present: begin.present | reaction.present, absent: begin.absent | reaction.absent };
    Reaching { rules, fault, found: &mut reached }.reach((&block.root, run), e);
    reached
}

struct Reaching<'a> {
    rules: Rules,
    fault: Fault,
    found: &'a mut Reached,
}

impl<'a> Reaching<'a> {
    fn reach(&mut self, part: Part, e: Event) {
        let (p, run) = part;
        let body = p.parts.first();
        if !self.found.all.insert(p.number) {
            self.found.twice.insert(p.number);
        }
        match p.form {
            Form::Nothing | Form::Pause | Form::Emit | Form::Exit | Form::Halt | Form::Sustain | Form::Await => {}
            Form::Present => self.reach_present(p, run, e),
            Form::Suspend => self.reach_suspend(p, run, e),
            Form::Sequence | Form::Loop => self.reach_stages(p, run, e),
            Form::Parallel => self.reach_parallel(p, run, e),
            Form::Trap | Form::Abort => body.into_iter().for_each(|body| self.reach((body, run), e)),
            Form::Local => {
                // The body with the status that must settles for it in this run.
                let settled = self.fault != Fault::LocalLeftUnknown;
                let event = if settled { self.rules.event_of_local(p, run, e) } else { e };
                body.into_iter().for_each(|body| self.reach((body, run), event));
            }
        }
    }

    /// Started, the branch of a known status; unknown, an undecided test. Resumed, the active branch without the test.
    fn reach_present(&mut self, p: &Statement, run: Run, e: Event) {
        let unknown = e.status(p.operand) == Status::Unknown;
        if unknown && (run == Run::Started || self.fault == Fault::ResumedPresentTests) {
            self.found.undecided.insert(p.number);
        }
        if let Some(branch) = self.rules.branch(p, run, e) {
            self.reach(branch, e);
        }
    }

    /// Resumed, the body while the signal is absent; unknown, an undecided test. Started, the body without the test.
    fn reach_suspend(&mut self, p: &Statement, run: Run, e: Event) {
        let unknown = e.status(p.operand) == Status::Unknown;
        let tests = match self.fault {
            Fault::SuspendNeverTests => false,
            Fault::StartedSuspendTests => true,
            _ => run != Run::Started,
        };
        if unknown && tests {
            self.found.undecided.insert(p.number);
        }
        let held = self.rules.suspend_status(p, run, e);
        if held == Status::Absent || held == Status::Present && self.fault == Fault::HeldBodyExecuted {
            self.reach((&p.parts[0], run), e);
        }
    }

    /// The second part, or a loop's body started again, if the first must give 0.
    fn reach_stages(&mut self, p: &Statement, run: Run, e: Event) {
        let (first, second) = self.rules.stages(p, run);
        self.reach(first, e);
        let goes_on = match (self.fault, p.form) {
            (Fault::RestartNotReached, Form::Loop) => false,
            (Fault::SecondAlwaysReached, Form::Sequence) => true,
            _ => self.rules.must(first, e).code == Some(0),
        };
        second.into_iter().filter(|_| goes_on).for_each(|second| self.reach(second, e));
    }

    /// The arms that run, whatever the other arm's code.
    fn reach_parallel(&mut self, p: &Statement, run: Run, e: Event) {
        let [one, other] = self.rules.arms(p, run);
        one.into_iter().for_each(|arm| self.reach(arm, e));
        let stuck = one.map_or(false, |arm| self.rules.must(arm, e).code.is_none());
        let waits = self.fault == Fault::StuckArmHidesOther && stuck;
        other.into_iter().filter(|_| !waits).for_each(|arm| self.reach(arm, e));
        if self.fault == Fault::IdleArmExecuted {
            self.found.all.extend(p.parts.iter().map(|arm| arm.number));
        }
    }
}
