//! The lines of the run program, byte for byte.

use super::style::{Step, Style, Tally};
use crate::block::Report;
use crate::output::Out;
use crate::trouble::Outcome;
use foldheron::Instant;

pub struct Plain;

/// Number, refusal or 0, code, present outputs, active pauses (of a 13: undecided outputs), rounds.
pub fn numbers(step: &Step) -> [u64; 6] {
    let (code, present, count, rounds) = match step.answer {
        Instant::Answered(r) => (r.code, r.present, r.active, r.rounds),
        Instant::NotConstructive(d) => (0, d.present, d.undecided, d.rounds),
        Instant::Clash(_, _) | Instant::Refused(_) => (0, 0, 0, 0),
    };
    [step.number, step.answer.number().into(), code.into(), present, count.into(), rounds.into()]
}

pub fn line(step: &Step) -> String {
    let [number, refusal, code, present, count, rounds] = numbers(step);
    format!("{} {} {} {} {} {}", number, refusal, code, present, count, rounds)
}

pub const SHORT: &str = "short";

/// The line of a refused block.
pub fn block_line(report: &Report) -> String {
    format!("block {} {}", report.refusal.number, report.refusal.place)
}

impl Style for Plain {
    fn step(&mut self, step: &Step, out: &mut Out) -> Outcome<()> {
        out.line(&line(step))
    }

    fn end(&mut self, tally: &Tally, out: &mut Out) -> Outcome<()> {
        if tally.short > 0 {
            out.line(SHORT)?;
        }
        Ok(())
    }

    fn refused(&mut self, report: &Report, out: &mut Out) -> Outcome<()> {
        out.line(&block_line(report))
    }
}
