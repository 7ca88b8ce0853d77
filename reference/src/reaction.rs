//! Rounds and the next state.

use crate::block::{pause_bit, Block, Form, Statement};
use crate::fault::Fault;
use crate::rules::Rules;
use crate::values::{signal_bits, Event, Heard, Mark, Must, Part, Run, Status};

#[derive(Clone, Copy, PartialEq, Eq, Hash, Debug)]
pub enum Phase {
    Fresh,
    Running(u128),
    Finished,
}

/// What one instant comes to; no code means not constructive.
#[derive(Clone, Copy, PartialEq, Eq, Debug)]
pub struct Reaction {
    pub present: u64,
    pub absent: u64,
    pub undecided: u32,
    pub code: Option<u32>,
    pub rounds: u32,
    pub next: Phase,
}

impl Rules {
    /// One instant of a block from a legal state with legal inputs, all of them heard.
    pub fn react(&self, block: &Block, phase: Phase, inputs: u64) -> Reaction {
        self.react_heard(block, phase, Heard::all(inputs, block.header.inputs))
    }

    /// One instant in which an input that is in neither set is unknown.
    pub fn react_heard(&self, block: &Block, phase: Phase, heard: Heard) -> Reaction {
        let nothing = Statement::lone_nothing();
        let root = self.root_of(block, phase, &nothing);
        let outputs = signal_bits(block.header.inputs, block.header.outputs);
        let inputs = signal_bits(0, block.header.inputs);
        let heard = match self.fault {
            Fault::UnknownInputAbsent => Heard::all(heard.present, block.header.inputs),
            Fault::UnknownInputPresent => Heard { present: inputs & !heard.absent, ..heard },
            Fault::HeardTurnedRound => Heard { present: heard.absent, absent: heard.present },
            _ => heard,
        };
        let (mut e, rounds) = self.rounds(root, outputs, begin_heard(heard));
        let mut must = self.must(root, e);
        if must.code.is_none() && self.planted(Fault::BothStatusesTried) {
            e = self.fitting(root, outputs, e);
            must = self.must(root, e);
        }
        if self.planted(Fault::UnknownInputRefuses) && inputs & !heard.present & !heard.absent != 0 {
            must.code = None;
        }
        let kept = self.kept(root, e) | if self.planted(Fault::OldPausesKept) { active_of(phase) } else { 0 };
        self.told(phase, outputs, e, rounds, must, kept)
    }

    /// What runs in a phase; finished runs as nothing.
    pub fn root_of<'a>(&self, block: &'a Block, phase: Phase, nothing: &'a Statement) -> Part<'a> {
        match phase {
            Phase::Fresh => (&block.root, Run::Started),
            Phase::Running(active) => (&block.root, Run::Resumed(active)),
            Phase::Finished if self.planted(Fault::FinishedStartsAgain) => (&block.root, Run::Started),
            Phase::Finished => (nothing, Run::Started),
        }
    }

    /// The last round is the first that changes nothing, and it is counted.
    fn rounds(&self, root: Part, outputs: u64, begin: Event) -> (Event, u32) {
        let mut e = begin;
        let mut rounds = 0;
        loop {
            rounds += 1;
            let next = self.round(root, outputs, e);
            if next == e || self.planted(Fault::OneTrueRound) && rounds == 2 {
                break;
            }
            e = next;
        }
        match self.fault {
            Fault::LastRoundNotCounted => (e, rounds - 1),
            Fault::RoundsInvented => (e, outputs.count_ones() + 1),
            _ => (e, rounds),
        }
    }

    /// Marks present the outputs in must and absent those not in can under plus, both of the same event.
    fn round(&self, root: Part, outputs: u64, e: Event) -> Event {
        let must = self.must(root, e);
        let marked = Event { present: e.present | must.signals & outputs, ..e };
        let asked = if self.planted(Fault::MustMarkedFirst) { marked } else { e };
        let mark = if self.planted(Fault::OutputsAbsentUnderOpen) { Mark::Open } else { Mark::Plus };
        let can = self.can(root, mark, asked);
        Event { absent: marked.absent | outputs & !can.signals, ..marked }
    }

    /// Puts the reaction together.
    fn told(&self, phase: Phase, outputs: u64, e: Event, rounds: u32, must: Must, kept: u128) -> Reaction {
        let undecided = outputs & !e.present & !e.absent;
        let refused = match self.fault {
            Fault::RefusesAll => true,
            Fault::RefusedByOutputs => undecided != 0,
            _ => must.code.is_none(),
        };
        let present = if self.planted(Fault::SameStatuses) { 0 } else { e.present & outputs };
        let counted = if self.planted(Fault::UndecidedCountsAll) { outputs } else { undecided };
        // Code 1 at the root gives running, 0 finished; a refusal changes nothing.
        let next = match must.code {
            _ if refused || self.planted(Fault::StateLeft) => phase,
            Some(1) => Phase::Running(kept),
            _ if kept != 0 => Phase::Running(kept),
            _ => Phase::Finished,
        };
        Reaction {
            present,
            absent: outputs & !present & !undecided,
            undecided: counted.count_ones(),
            code: if refused { None } else { Some(must.code.unwrap_or(0)) },
            rounds,
            next,
        }
    }

    /// The pauses a statement keeps: none with a code other than 1, else those of the parts executed.
    pub fn kept(&self, part: Part, e: Event) -> u128 {
        let (p, run) = part;
        if self.must(part, e).code != Some(1) && !self.planted(Fault::OtherCodesKeepPauses) {
            return 0;
        }
        match p.form {
            // A started pause keeps itself.
            Form::Pause if run == Run::Started || self.planted(Fault::ResumedPauseStays) => pause_bit(p.first_pause),
            Form::Halt | Form::Sustain | Form::Await => pause_bit(p.first_pause),
            // A suspended body keeps its old set.
            Form::Suspend if self.suspend_status(p, run, e) == Status::Present => match run {
                Run::Resumed(active) if !self.planted(Fault::SuspendedForgets) => active & p.pauses,
                _ => 0,
            },
            Form::Local => self.kept((&p.parts[0], run), self.event_of_local(p, run, e)),
            _ => self.executed(part, e).iter().fold(0, |all, &(part, e)| all | self.kept(part, e)),
        }
    }

    /// The parts of a statement that are executed, with what they see.
    fn executed<'a>(&self, (p, run): Part<'a>, e: Event) -> Vec<(Part<'a>, Event)> {
        match p.form {
            Form::Present => self.branch(p, run, e).into_iter().map(|part| (part, e)).collect(),
            Form::Sequence | Form::Loop => {
                let (first, second) = self.stages(p, run);
                let must = self.must(first, e);
                let second = second.filter(|_| must.code == Some(0));
                let later = second.map(|part| (part, self.event_of_second(p, must, e)));
                Some((first, e)).into_iter().chain(later).collect()
            }
            Form::Parallel if self.planted(Fault::LeftArmKeptOnly) => {
                self.arms(p, run)[0].into_iter().map(|part| (part, e)).collect()
            }
            Form::Parallel => self.arms(p, run).iter().flatten().map(|&part| (part, e)).collect(),
            _ => p.parts.iter().map(|part| ((part, run), e)).collect(),
        }
    }

    /// A fault: the only way to set the undecided outputs that fits.
    fn fitting(&self, root: Part, outputs: u64, e: Event) -> Event {
        let open = outputs & !e.present & !e.absent;
        let mut fits = Vec::new();
        let mut chosen = open;
        loop {
            let tried = Event { present: e.present | chosen, absent: e.absent | open & !chosen };
            let must = self.must(root, tried);
            if must.code.is_some() && must.signals & outputs == tried.present & outputs {
                fits.push(tried);
            }
            if chosen == 0 || open.count_ones() > 8 {
                break;
            }
            chosen = (chosen - 1) & open;
        }
        if fits.len() == 1 { fits[0] } else { e }
    }
}

/// All outputs begin unknown; an input not given is absent.
pub fn begin_of(block: &Block, inputs: u64) -> Event {
    begin_heard(Heard::all(inputs, block.header.inputs))
}

/// All outputs begin unknown, and so does an input that is in neither set.
pub fn begin_heard(heard: Heard) -> Event {
    Event { present: heard.present, absent: heard.absent }
}

pub fn active_of(phase: Phase) -> u128 {
    match phase {
        Phase::Running(active) => active,
        _ => 0,
    }
}
