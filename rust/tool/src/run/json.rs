//! An object an instant, each on a line of its own, and a last one on the whole run. A refused instant has null for its outputs: a list without
//! a name, or a text, would read as low.

use super::style::{Step, Style, Tally};
use super::waits::Waits;
use crate::block::Report;
use crate::commands::check;
use crate::json::Object;
use crate::labels::{members, Labels};
use crate::output::Out;
use crate::trouble::Outcome;
use foldheron::{name_of, Doubt, Instant};

pub struct Json<'a> {
    /// None where the block is refused.
    pub labels: Option<&'a Labels>,
}

impl Json<'_> {
    fn names(&self, set: u64, name: fn(&Labels, usize) -> String) -> Vec<String> {
        self.labels.map_or(Vec::new(), |labels| members(set).map(|n| name(labels, n)).collect())
    }

    fn undecided(&self, doubt: &Doubt) -> u64 {
        self.labels.map_or(0, Labels::all_outputs) & !(doubt.present | doubt.absent)
    }
}

impl Style for Json<'_> {
    fn step(&mut self, step: &Step, out: &mut Out) -> Outcome<()> {
        let number = step.answer.number();
        let object = Object::new().number("instant", step.number).texts("inputs", &self.names(step.inputs.present, Labels::input));
        let object = match step.inputs.unheard {
            0 => object,
            unheard => object.texts("unheard", &self.names(unheard, Labels::input)),
        };
        let object = object.number("refusal", number);
        let object = match &step.answer {
            Instant::Answered(r) => {
                let object = object.number("code", r.code).texts("outputs", &self.names(r.present, Labels::output));
                object.number("active", r.active).number("rounds", r.rounds)
            }
            Instant::NotConstructive(d) => {
                let object = object.text("name", name_of(number).unwrap_or("")).null("outputs");
                let object = object.texts("undecided", &self.names(self.undecided(d), Labels::output)).number("rounds", d.rounds);
                match step.waits.as_ref().zip(self.labels) {
                    Some((Waits::Perhaps(with, without), labels)) => {
                        let names = |inputs: &[usize]| inputs.iter().map(|n| labels.input(*n)).collect::<Vec<_>>();
                        object.lists("waits", &[]).texts("if_present", &names(with)).texts("if_absent", &names(without))
                    }
                    Some((waits, labels)) => object.lists("waits", &waits.names(labels)),
                    None => object,
                }
            }
            _ => object.text("name", name_of(number).unwrap_or("")).null("outputs"),
        };
        out.line(&object.done())
    }

    fn end(&mut self, tally: &Tally, out: &mut Out) -> Outcome<()> {
        let object = Object::new().number("instants", tally.instants).number("refused", tally.refusals());
        out.line(&object.number("short", tally.short as u64).done())
    }

    fn refused(&mut self, report: &Report, out: &mut Out) -> Outcome<()> {
        out.line(&check::refused(report).done())
    }
}
