//! A run as a timing diagram: inputs and outputs by name, high where present, with codes, active pauses and refusals below. A picture has a readable number of
//! instants; which of a long run they are is asked for, and it says which they are.

use super::style::{Step, Style, Tally};
use super::words::{ends, why};
use crate::block::{Block, Report};
use crate::draw::timing::{Cell, Group, Level, Row, Timing, CODE};
use crate::labels::Labels;
use crate::output::Out;
use crate::sets::{Given, UNKNOWN};
use crate::trouble::{Outcome, Trouble};
use crate::walk::{counted, grouped};
use foldheron::Instant;
use std::ops::RangeInclusive;

/// Instants that a picture has at most.
pub const MOST: u64 = 240;
/// Of these so many get a note at most.
const NOTES: usize = 6;

/// One instant as it is drawn.
#[derive(Clone, Copy)]
pub struct Shown {
    pub number: u64,
    pub inputs: Given,
    pub answer: Instant,
}

pub struct Picture<'a> {
    pub block: &'a Block,
    pub window: RangeInclusive<u64>,
    pub shown: Vec<Shown>,
}

impl<'a> Picture<'a> {
    pub fn new(block: &'a Block, window: RangeInclusive<u64>) -> Picture<'a> {
        Picture { block, window, shown: Vec::new() }
    }

    pub fn timing(&self, tally: &Tally) -> Timing {
        let answers: Vec<Instant> = self.shown.iter().map(|shown| shown.answer).collect();
        let inputs: Vec<Given> = self.shown.iter().map(|shown| shown.inputs).collect();
        Timing {
            heading: format!("A run of {}, version {}", self.block.title(), self.block.summary.version),
            about: vec![self.about(tally)],
            instants: self.shown.iter().map(|shown| shown.number).collect(),
            groups: vec![given(&self.block.labels, &inputs), answered("outputs".to_string(), "outputs", &self.block.labels, &answers, true)],
            mark: None,
            notes: self.notes(),
        }
    }

    /// What the run came to, and which part of it is drawn.
    fn about(&self, tally: &Tally) -> String {
        let part = self.part(tally).map_or(String::new(), |part| format!("{} of ", part));
        let short = if tally.short > 0 { format!("; the inputs end within a set, {} left over", counted(tally.short as u64, "byte")) } else { String::new() };
        format!("{}{}{}", part, ends(tally), short)
    }
}

impl Picture<'_> {
    /// Keeps an instant that is drawn.
    pub fn keep(&mut self, step: &Step) {
        if self.window.contains(&step.number) {
            self.shown.push(Shown { number: step.number, inputs: step.inputs, answer: step.answer });
        }
    }

    /// The instants that are drawn, where they are not all.
    pub fn part(&self, tally: &Tally) -> Option<String> {
        let (first, last) = (self.shown.first()?, self.shown.last()?);
        let is_part = (self.shown.len() as u64) < tally.instants;
        is_part.then(|| format!("instants {} to {}", grouped(first.number), grouped(last.number)))
    }

    /// That some instant is drawn, where any was run.
    pub fn look(&self, tally: &Tally) -> Outcome<()> {
        if tally.instants == 0 || !self.shown.is_empty() {
            return Ok(());
        }
        let asked = format!("instants {} to {} are asked for", grouped(*self.window.start()), grouped(*self.window.end()));
        Err(Trouble::call(format!("{}, and the run has {}", asked, counted(tally.instants, "instant"))).advise("name instants of the run; nothing is drawn"))
    }

    /// What is told of instants that were refused with 11: the inputs that the block does not have, which have no row.
    fn notes(&self) -> Vec<String> {
        let odd: Vec<&Shown> = self.shown.iter().filter(|shown| shown.answer.number() == 11).collect();
        let told = odd.iter().take(NOTES).map(|shown| format!("instant {}: {}", grouped(shown.number), why(&self.block.labels, shown.inputs, &shown.answer)));
        let more = odd.len().checked_sub(NOTES).filter(|more| *more > 0).map(|more| format!("and {} that are refused with 11", counted(more as u64, "more instant")));
        told.chain(more).collect()
    }
}

impl Style for Picture<'_> {
    fn step(&mut self, step: &Step, _out: &mut Out) -> Outcome<()> {
        self.keep(step);
        Ok(())
    }

    fn end(&mut self, tally: &Tally, out: &mut Out) -> Outcome<()> {
        self.look(tally)?;
        out.text(&self.timing(tally).file())
    }

    fn refused(&mut self, _report: &Report, _out: &mut Out) -> Outcome<()> {
        Ok(())
    }
}

/// The inputs, a row each.
pub fn given(labels: &Labels, sets: &[Given]) -> Group {
    let level = |set: &Given, n: usize| match (set.unheard >> n & 1, set.present >> n & 1) {
        (1, _) => Level::Unheard,
        (_, 1) => Level::Present,
        _ => Level::Absent,
    };
    let rows = labels.inputs().map(|n| Row { name: labels.signal(n), cells: sets.iter().map(|set| Cell::Level(level(set, n))).collect() });
    Group { title: "inputs".to_string(), class: "inputs", rows: rows.collect() }
}

/// What instants came to: the outputs, a row each, the code, the active pauses where they are asked for, and the refusals where there are any.
pub fn answered(title: String, class: &'static str, labels: &Labels, answers: &[Instant], has_pauses: bool) -> Group {
    let words = |name: &str, cell: &dyn Fn(&Instant) -> Cell| Row { name: name.to_string(), cells: answers.iter().map(cell).collect() };
    let unknown = || Cell::Words(UNKNOWN.to_string());
    let mut rows: Vec<Row> = labels.outputs().map(|n| words(&labels.signal(n), &|answer| Cell::Level(output(answer, n)))).collect();
    rows.push(words(CODE, &|answer| match answer {
        Instant::Answered(r) => Cell::Words(r.code.to_string()),
        _ => unknown(),
    }));
    if has_pauses {
        rows.push(words("active pauses", &|answer| match answer {
            Instant::Answered(r) => Cell::Words(r.active.to_string()),
            _ => unknown(),
        }));
    }
    if answers.iter().any(|answer| answer.number() != 0) {
        rows.push(words("refused with", &|answer| match answer.number() {
            0 => Cell::Nothing,
            number => Cell::Flag(number.to_string()),
        }));
    }
    Group { title, class, rows }
}

/// The level of an output. Of a 13 some are known; of every other refused instant none is, and none is low.
fn output(answer: &Instant, n: usize) -> Level {
    match answer {
        Instant::Answered(r) if r.present >> n & 1 == 1 => Level::Present,
        Instant::Answered(_) => Level::Absent,
        Instant::NotConstructive(d) if d.present >> n & 1 == 1 => Level::ToldPresent,
        Instant::NotConstructive(d) if d.absent >> n & 1 == 1 => Level::ToldAbsent,
        _ => Level::Unknown,
    }
}

#[cfg(test)]
mod tests {
    use super::*;
    use foldheron::{Doubt, Reaction, Refusal};

    #[test]
    fn levels_of_outputs() {
        let answer = Instant::Answered(Reaction { present: 1, code: 1, rounds: 2, active: 1 });
        let doubt = Instant::NotConstructive(Doubt { present: 1, absent: 2, undecided: 1, rounds: 3 });
        let refused = Instant::Refused(Refusal { number: 11, place: 0 });
        let levels = |answer: &Instant| [0, 1, 2].map(|n| output(answer, n));
        assert_eq!(levels(&answer), [Level::Present, Level::Absent, Level::Absent]);
        assert_eq!(levels(&doubt), [Level::ToldPresent, Level::ToldAbsent, Level::Unknown]);
        assert_eq!(levels(&refused), [Level::Unknown; 3]);
    }
}
