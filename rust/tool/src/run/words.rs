//! The table that a person reads: inputs and outputs by name with what changed marked, and refusals in words.

use super::picture::Shown;
use super::style::{short, Step, Style, Tally};
use crate::block::{Block, Report};
use crate::labels::Labels;
use crate::layout::State;
use crate::output::Out;
use crate::refusal;
use crate::sets::{changed, changed_inputs, pauses, sentence, Given, UNKNOWN};
use crate::table::{self, Column, Side};
use crate::trouble::Outcome;
use crate::walk::{counted, grouped};
use crate::why::{how_to_ask, FEW};
use foldheron::{Doubt, Instant};
use std::ops::Range;
use std::path::Path;

/// A column of signals is at most so wide, so that the table has 80 columns; a longer list pushes what is to its right.
const WIDEST: usize = 22;
/// The same where the instants are known beforehand.
const FITTED: usize = 44;

pub struct Table<'a> {
    labels: &'a Labels,
    table: table::Table,
    /// The inputs of the instant before, and the outputs of the last one that was answered.
    inputs: Option<Given>,
    outputs: Option<u64>,
    /// The sets up to the first 13, as far as they are advised to ask with, and how to ask why it is one.
    sets: Option<Vec<Given>>,
    asking: Option<String>,
    path: &'a Path,
}

/// The code with its word.
pub fn code(code: u16) -> String {
    match code {
        0 => "0 ended".to_string(),
        1 => "1 waits".to_string(),
        other => other.to_string(),
    }
}

/// How wide a column of these signals is, so that all of them fit, within two bounds.
pub fn width(labels: &Labels, signals: Range<usize>, least: usize, most: usize) -> usize {
    let all: usize = signals.map(|n| labels.signal(n).len() + 2).sum();
    all.saturating_sub(1).clamp(least, most)
}

/// The columns of a run; a log has the same but for the pauses.
pub fn columns(labels: &Labels, first: &'static str, has_pauses: bool) -> Vec<Column> {
    let wide = |range: Range<usize>, least: usize| width(labels, range, least, WIDEST);
    let known = labels.signals() > 0;
    let least = if known { 7 } else { 16 };
    let mut columns = vec![
        Column { title: first, width: 7, side: Side::Right },
        Column { title: "inputs", width: wide(labels.inputs(), least), side: Side::Left },
        Column { title: "outputs", width: wide(labels.outputs(), least), side: Side::Left },
        Column { title: "code", width: 7, side: Side::Left },
    ];
    if has_pauses {
        columns.push(Column { title: "pauses", width: 6, side: Side::Right });
    }
    columns.push(Column { title: "rounds", width: 6, side: Side::Right });
    columns
}

impl<'a> Table<'a> {
    /// The table of a run; from fresh nothing was present before it, and after a saved state nobody knows.
    pub fn new(block: &'a Block, is_fresh: bool) -> Table<'a> {
        let table = table::Table::new(columns(&block.labels, "instant", true));
        let begun = Some(()).filter(|_| is_fresh);
        Table {
            labels: &block.labels,
            table,
            inputs: begun.map(|_| Given::default()),
            outputs: begun.map(|_| 0),
            sets: begun.map(|_| Vec::new()),
            asking: None,
            path: &block.path,
        }
    }

    /// Widens the columns of signals to these instants, where they are known beforehand.
    pub fn fit(&mut self, instants: &[Shown]) {
        let labels = self.labels;
        let (mut inputs, mut outputs) = (self.inputs, self.outputs);
        for shown in instants {
            self.table.widen(1, changed_inputs(shown.inputs, inputs, |n| labels.input(n)).len().min(FITTED));
            inputs = Some(shown.inputs);
            if let Instant::Answered(reaction) = &shown.answer {
                self.table.widen(2, changed(reaction.present, outputs, |n| labels.output(n)).len().min(FITTED));
                outputs = Some(reaction.present);
            }
        }
    }

    /// Keeps how to ask about the first 13.
    fn ask(&mut self, step: &Step) {
        if self.asking.is_some() {
            return;
        }
        if let Some(sets) = self.sets.as_mut().filter(|sets| sets.len() <= FEW) {
            sets.push(step.inputs);
        }
        if step.answer.number() == 13 {
            self.asking = Some(how_to_ask(step.number, self.path, self.sets.as_deref(), self.labels));
        }
    }
}

impl Style for Table<'_> {
    fn begin(&mut self, out: &mut Out) -> Outcome<()> {
        out.line(&self.table.head())
    }

    fn step(&mut self, step: &Step, out: &mut Out) -> Outcome<()> {
        let labels = self.labels;
        let number = step.number.to_string();
        let inputs = changed_inputs(step.inputs, self.inputs, |n| labels.input(n));
        self.inputs = Some(step.inputs);
        self.ask(step);
        let reaction = match &step.answer {
            Instant::Answered(reaction) => reaction,
            refused => {
                let title = format!("{}  refused with {}", UNKNOWN, refusal::title(refused.number()));
                out.line(&self.table.row(&[&number, &inputs, &title]))?;
                out.line(&format!("{}   {}", self.table.indent(2), why(labels, step.inputs, &step.answer)))?;
                return match &step.waits {
                    Some(waits) => out.line(&format!("{}   {}", self.table.indent(2), waits.in_words(labels))),
                    None => Ok(()),
                };
            }
        };
        let outputs = changed(reaction.present, self.outputs, |n| labels.output(n));
        let (rounds, active) = (reaction.rounds.to_string(), reaction.active.to_string());
        self.outputs = Some(reaction.present);
        out.line(&self.table.row(&[&number, &inputs, &outputs, &code(reaction.code), &active, &rounds]))
    }

    fn end(&mut self, tally: &Tally, out: &mut Out) -> Outcome<()> {
        out.line(&ends(tally))?;
        self.key(tally, out)
    }

    fn refused(&mut self, _report: &Report, _out: &mut Out) -> Outcome<()> {
        Ok(())
    }
}

impl Table<'_> {
    /// What stands under a table behind what the run came to: what its marks say, and how to ask more.
    pub fn key(&self, tally: &Tally, out: &mut Out) -> Outcome<()> {
        match (tally.instants > 0, tally.has_unheard) {
            (true, true) => out.line("+ came, - went, ? not heard, x no outputs")?,
            (true, false) => out.line("+ came, - went, x no outputs")?,
            _ => {}
        }
        if let Some(asking) = &self.asking {
            out.line(asking)?;
        }
        if tally.has_unsettled {
            out.line("of a 13 with inputs not heard --waits says which input, or which two, would settle it")?;
        }
        if tally.short > 0 {
            out.line(&short(tally.short))?;
        }
        Ok(())
    }
}

/// Why an instant was refused, in a line.
pub fn why(labels: &Labels, given: Given, answer: &Instant) -> String {
    match answer {
        Instant::NotConstructive(doubt) => in_doubt(labels, doubt, given.unheard != 0),
        Instant::Clash(first, second) => format!("pauses {} and {} cannot be active together", first, second),
        Instant::Refused(why) if why.number == 11 => {
            let more = sentence(given.present & !labels.all_inputs(), |n| labels.input(n));
            format!("the block has no input {}: it has {}", more, counted(labels.inputs().len() as u64, "input"))
        }
        other => refusal::meaning(other.number()),
    }
}

fn in_doubt(labels: &Labels, doubt: &Doubt, has_unheard: bool) -> String {
    let name = |n: usize| labels.output(n);
    let undecided = labels.all_outputs() & !(doubt.present | doubt.absent);
    let cause = match has_unheard {
        true => "a signal waits for an input that is not heard or for itself, perhaps by way of others",
        false => "a signal waits for itself, perhaps by way of others",
    };
    let waits = match undecided {
        0 if has_unheard => "a test waits for an input that is not heard, or a local signal for itself, perhaps by way of others".to_string(),
        0 => "a local signal waits for itself, perhaps by way of others".to_string(),
        one if one.is_power_of_two() => format!("{} is undecided: {}", sentence(one, name), cause),
        more => format!("{} are undecided: {}", sentence(more, name), cause),
    };
    match doubt.present {
        0 => waits,
        known => format!("{}; known present, and not to be switched: {}", waits, sentence(known, name)),
    }
}

/// What a run came to: how many instants were answered and refused, and the state in which it leaves the block.
pub fn ends(tally: &Tally) -> String {
    let refused: Vec<String> = tally.refused.iter().map(|(number, times)| format!("{} refused with {}", grouped(*times), refusal::title(*number))).collect();
    let answered = tally.instants - tally.refusals();
    let ends = match refused.as_slice() {
        [] if tally.instants == 0 => "no instant was run".to_string(),
        [] => format!("{}, all answered", counted(tally.instants, "instant")),
        all => format!("{}: {} answered, {}", counted(tally.instants, "instant"), grouped(answered), all.join(", ")),
    };
    format!("{}; {}", ends, after(&tally.state))
}

/// The state in which a run leaves the block.
fn after(state: &[u8]) -> String {
    match State::of(state) {
        Some(state) if state.phase == 1 => format!("it waits at {}", pauses(&state.pauses())),
        Some(state) if state.phase == 2 => "it has ended".to_string(),
        _ => "it has not begun".to_string(),
    }
}
