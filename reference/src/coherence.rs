//! The coherence law by brute force: every assignment of outputs and of each local each time its body runs.
//! It takes nothing from must and can, so that it can stand against them.

use crate::block::{pause_bit, Block, Form, Statement};
use crate::codes::{down, exit_code, Depth};
use crate::reaction::{Phase, Reaction};
use crate::values::{signal_bit, signal_bits, Run};

/// One way a statement is executed: emits done, completion code, pauses kept, and which statements, of the first 128.
#[derive(Clone, Copy, PartialEq, Eq, Debug)]
pub struct Outcome {
    pub signals: u64,
    pub code: u32,
    pub kept: u128,
    pub executed: u128,
}

impl Outcome {
    fn code(code: u32) -> Outcome {
        Outcome { signals: 0, code, kept: 0, executed: 0 }
    }

    /// What the reaction shows: the state that it leaves has pauses only with code 1, and not what was executed.
    pub fn shown(self) -> Outcome {
        Outcome { kept: if self.code == 1 { self.kept } else { 0 }, executed: 0, ..self }
    }
}

/// A wrong version of the law, planted so that it can be seen which blocks tell it from the true one.
#[derive(Clone, Copy, PartialEq, Eq, Debug)]
pub enum Slip {
    None,
    /// A parallel completes with the smaller code.
    SmallerCode,
    /// A trap passes codes as they are.
    CodeNotDown,
    /// A statement with a code other than 1 keeps its pauses.
    OtherCodesKeep,
    /// A held body keeps the whole active set.
    HeldKeepsAll,
    /// A suspend tests when its body starts.
    HeldAtStart,
    /// A present tests again on resuming.
    TestedAgain,
    /// A sequence's second part is always executed.
    SecondAlways,
    /// A loop ends when its resumed body does.
    LoopEnds,
    /// An arm without an active pause is started again.
    IdleArmStarts,
    /// A local need not be as it was emitted.
    LocalUnasked,
    /// A local has one status over the resumed and the restarted body of a loop.
    LocalOverRestart,
}

pub const SLIPS: [Slip; 11] = [
    Slip::SmallerCode, Slip::CodeNotDown, Slip::OtherCodesKeep, Slip::HeldKeepsAll, Slip::HeldAtStart, Slip::TestedAgain,
    Slip::SecondAlways, Slip::LoopEnds, Slip::IdleArmStarts, Slip::LocalUnasked, Slip::LocalOverRestart,
];

/// Every coherent reaction, one for each coherent assignment, by the law or by a wrong version of it.
pub fn reactions(slip: Slip, block: &Block, phase: Phase, inputs: u64) -> Vec<Outcome> {
    let outputs = signal_bits(block.header.inputs, block.header.outputs);
    let mut found = Vec::new();
    let mut present = outputs;
    loop {
        let outcomes = match phase {
            Phase::Fresh => execute(slip, &block.root, Run::Started, inputs | present),
            Phase::Running(active) => execute(slip, &block.root, Run::Resumed(active), inputs | present),
            Phase::Finished => vec![Outcome::code(0)],
        };
        // An output is present exactly when an emit of it is executed in the block.
        found.extend(outcomes.into_iter().filter(|outcome| outcome.signals == present));
        if present == 0 {
            return found;
        }
        present = (present - 1) & outputs;
    }
}

/// Whether an answered instant is the only coherent reaction, with its code and its next state.
pub fn only_coherent(reaction: &Reaction, found: &[Outcome]) -> bool {
    let next = |outcome: &Outcome| match outcome.code {
        1 => Phase::Running(outcome.kept),
        _ => Phase::Finished,
    };
    match found {
        [only] => {
            reaction.present == only.signals
                && reaction.undecided == 0
                && reaction.code == Some(only.code)
                && reaction.next == next(only)
        }
        _ => false,
    }
}

/// Executes a statement; each way to set the locals met on the way gives an outcome, if coherent for them.
fn execute(slip: Slip, p: &Statement, run: Run, present: u64) -> Vec<Outcome> {
    let outcomes = match p.form {
        Form::Nothing => vec![Outcome::code(0)],
        Form::Pause if run == Run::Started => {
            vec![Outcome { kept: pause_bit(p.first_pause), ..Outcome::code(1) }]
        }
        Form::Pause => vec![Outcome::code(0)],
        Form::Emit => vec![Outcome { signals: signal_bit(p.operand), ..Outcome::code(0) }],
        Form::Exit => vec![Outcome::code(exit_code(Depth(p.operand)))],
        Form::Present => execute(slip, branch(slip, p, run, present), run, present),
        Form::Suspend => suspended(slip, p, run, present),
        Form::Sequence => sequence(slip, p, run, present),
        Form::Loop => looped(slip, p, run, present),
        Form::Parallel => parallel(slip, p, run, present),
        Form::Trap => {
            let body = execute(slip, &p.parts[0], run, present);
            let lower = |code: u32| if slip == Slip::CodeNotDown { code } else { down(code) };
            body.into_iter().map(|outcome| Outcome { code: lower(outcome.code), ..outcome }).collect()
        }
        Form::Local => local(slip, p, run, present),
        Form::Halt | Form::Sustain | Form::Await | Form::Abort => unreachable!("a statement of edition 2"),
    };
    // A statement with a code other than 1 keeps no pause.
    let keeps = |o: &Outcome| o.code == 1 || slip == Slip::OtherCodesKeep;
    let own = pause_bit(p.number);
    let whole = |o: Outcome| Outcome { kept: if keeps(&o) { o.kept } else { 0 }, executed: o.executed | own, ..o };
    outcomes.into_iter().map(whole).collect()
}

fn branch(slip: Slip, p: &Statement, run: Run, present: u64) -> &Statement {
    let then = match run {
        Run::Started => present & signal_bit(p.operand) != 0,
        Run::Resumed(_) if slip == Slip::TestedAgain => present & signal_bit(p.operand) != 0,
        Run::Resumed(active) => p.parts[0].holds(active),
    };
    &p.parts[if then { 0 } else { 1 }]
}

fn suspended(slip: Slip, p: &Statement, run: Run, present: u64) -> Vec<Outcome> {
    match run {
        Run::Resumed(active) if present & signal_bit(p.operand) != 0 => {
            let kept = if slip == Slip::HeldKeepsAll { active } else { active & p.pauses };
            vec![Outcome { kept, ..Outcome::code(1) }]
        }
        Run::Started if slip == Slip::HeldAtStart && present & signal_bit(p.operand) != 0 => vec![Outcome::code(0)],
        _ => execute(slip, &p.parts[0], run, present),
    }
}

fn sequence(slip: Slip, p: &Statement, run: Run, present: u64) -> Vec<Outcome> {
    match run {
        Run::Resumed(active) if !p.parts[0].holds(active) => execute(slip, &p.parts[1], run, present),
        _ => go_on(slip, execute(slip, &p.parts[0], run, present), &p.parts[1], present),
    }
}

fn looped(slip: Slip, p: &Statement, run: Run, present: u64) -> Vec<Outcome> {
    let inside = &p.parts[0];
    if slip == Slip::LocalOverRestart && inside.form == Form::Local && run != Run::Started {
        let body = &inside.parts[0];
        return scoped(slip, inside, present, |present| go_on(slip, execute(slip, body, run, present), body, present));
    }
    let body = execute(slip, &p.parts[0], run, present);
    match run {
        Run::Started => body,
        Run::Resumed(_) if slip == Slip::LoopEnds => body,
        Run::Resumed(_) => go_on(slip, body, &p.parts[0], present),
    }
}

/// Where the first gives 0, the second is started and counts too.
fn go_on(slip: Slip, first: Vec<Outcome>, second: &Statement, present: u64) -> Vec<Outcome> {
    let mut all = Vec::new();
    for one in first {
        if one.code != 0 && slip != Slip::SecondAlways {
            all.push(one);
            continue;
        }
        for other in execute(slip, second, Run::Started, present) {
            let executed = one.executed | other.executed;
            all.push(Outcome { signals: one.signals | other.signals, executed, ..other });
        }
    }
    all
}

fn parallel(slip: Slip, p: &Statement, run: Run, present: u64) -> Vec<Outcome> {
    let arm = |part: &Statement| match run {
        Run::Resumed(active) if !part.holds(active) && slip == Slip::IdleArmStarts => {
            execute(slip, part, Run::Started, present)
        }
        Run::Resumed(active) if !part.holds(active) => vec![Outcome::code(0)],
        _ => execute(slip, part, run, present),
    };
    let (ones, others) = (arm(&p.parts[0]), arm(&p.parts[1]));
    let mut all = Vec::new();
    for one in &ones {
        for other in &others {
            all.push(Outcome {
                signals: one.signals | other.signals,
                code: if slip == Slip::SmallerCode { one.code.min(other.code) } else { one.code.max(other.code) },
                kept: one.kept | other.kept,
                executed: one.executed | other.executed,
            });
        }
    }
    all
}

/// Both statuses for this run of the body; one stays if it is present exactly when emitted in this run.
fn local(slip: Slip, p: &Statement, run: Run, present: u64) -> Vec<Outcome> {
    scoped(slip, p, present, |present| execute(slip, &p.parts[0], run, present))
}

/// What runs under each status of a local's signal and agrees with it, the signal removed.
fn scoped(slip: Slip, p: &Statement, present: u64, body: impl Fn(u64) -> Vec<Outcome>) -> Vec<Outcome> {
    let bit = signal_bit(p.operand);
    let mut all = Vec::new();
    for &status in &[bit, 0] {
        for outcome in body(present & !bit | status) {
            if outcome.signals & bit == status || slip == Slip::LocalUnasked {
                all.push(Outcome { signals: outcome.signals & !bit, ..outcome });
            }
        }
    }
    all
}
