//! Comma-separated values: a head, then a line an instant. A refused instant has x for its outputs, code and active pauses, and an input that is not
//! heard has ?.

use super::style::{short, Step, Style, Tally};
use crate::block::Report;
use crate::labels::Labels;
use crate::output::{say, Out};
use crate::sets::{Given, UNKNOWN};
use crate::trouble::Outcome;
use foldheron::Instant;

pub struct Csv<'a> {
    pub labels: &'a Labels,
}

/// The columns before those of the signals; a signal may have one of these names, so they come first.
const FIXED: &str = "instant,refusal,code,active,undecided,rounds,inputs,outputs";

impl Csv<'_> {
    /// A column for each signal of a set; x where the set is not known, ? where the signal is not heard.
    fn columns(&self, line: &mut String, signals: std::ops::Range<usize>, set: Option<Given>) {
        for n in signals {
            line.push_str(match set.map(|set| (set.unheard >> n & 1, set.present >> n & 1)) {
                None => ",x",
                Some((1, _)) => ",?",
                Some((_, 0)) => ",0",
                Some(_) => ",1",
            });
        }
    }
}

/// Code, active, undecided and rounds, and the outputs.
fn fields(answer: &Instant) -> (String, Option<u64>) {
    match answer {
        Instant::Answered(r) => (format!("{},{},0,{}", r.code, r.active, r.rounds), Some(r.present)),
        Instant::NotConstructive(d) => (format!("x,x,{},{}", d.undecided, d.rounds), None),
        Instant::Clash(_, _) | Instant::Refused(_) => ("x,x,x,x".to_string(), None),
    }
}

impl Style for Csv<'_> {
    fn begin(&mut self, out: &mut Out) -> Outcome<()> {
        let labels = self.labels;
        let names: String = labels.inputs().chain(labels.outputs()).map(|n| format!(",{}", labels.signal(n))).collect();
        out.line(&format!("{}{}", FIXED, names))
    }

    fn step(&mut self, step: &Step, out: &mut Out) -> Outcome<()> {
        let (numbers, outputs) = fields(&step.answer);
        let set = outputs.map_or(UNKNOWN.to_string(), |set| set.to_string());
        let mut line = format!("{},{},{},{},{}", step.number, step.answer.number(), numbers, step.inputs.present, set);
        self.columns(&mut line, self.labels.inputs(), Some(step.inputs));
        self.columns(&mut line, self.labels.outputs(), outputs.map(Given::heard));
        out.line(&line)
    }

    /// Inputs that end within a set are told on standard error: here a line that is no instant would be one too many.
    fn end(&mut self, tally: &Tally, _out: &mut Out) -> Outcome<()> {
        if tally.short > 0 {
            say(&[short(tally.short)]);
        }
        Ok(())
    }

    fn refused(&mut self, _report: &Report, _out: &mut Out) -> Outcome<()> {
        Ok(())
    }
}
