//! The forms in which a run is printed, and what they all are told.

use super::asked::{Asked, Form};
use super::{csv::Csv, expect::Expect, json::Json, picture::Picture, plain::Plain, vcd::Vcd, waits::Waits, words::Table};
use crate::block::{Block, Report};
use crate::layout::SET;
use crate::output::Out;
use crate::sets::Given;
use crate::trouble::Outcome;
use crate::walk::counted;
use foldheron::Instant;

/// One instant: its number from 1, its inputs, the library's answer, and where it was looked for, what a 13 waits for.
pub struct Step {
    pub number: u64,
    pub inputs: Given,
    pub answer: Instant,
    pub waits: Option<Waits>,
}

/// What a run came to.
#[derive(Default)]
pub struct Tally {
    pub instants: u64,
    /// Refusals by number, and how often.
    pub refused: Vec<(u16, u64)>,
    /// Whether some input was not heard in some instant.
    pub has_unheard: bool,
    /// Whether an instant with inputs not heard was refused with 13, and not looked into.
    pub has_unsettled: bool,
    /// Bytes left over at the end of the inputs.
    pub short: usize,
    pub state: Vec<u8>,
}

impl Tally {
    pub fn count(&mut self, step: &Step) {
        self.instants += 1;
        self.has_unheard |= step.inputs.unheard != 0;
        let number = step.answer.number();
        self.has_unsettled |= number == 13 && step.inputs.unheard != 0 && step.waits.is_none();
        if number == 0 {
            return;
        }
        match self.refused.iter_mut().find(|(refusal, _)| *refusal == number) {
            Some((_, times)) => *times += 1,
            None => self.refused.push((number, 1)),
        }
    }

    pub fn refusals(&self) -> u64 {
        self.refused.iter().map(|(_, times)| times).sum()
    }
}

/// What is said of bytes that are left over.
pub fn short(left: usize) -> String {
    format!("the inputs end within a set: {} left over, and a set has {}", counted(left as u64, "byte"), SET)
}

pub trait Style {
    fn begin(&mut self, _out: &mut Out) -> Outcome<()> {
        Ok(())
    }
    fn step(&mut self, step: &Step, out: &mut Out) -> Outcome<()>;
    /// Whether it prints nothing as long as all is well.
    fn is_silent(&self) -> bool {
        false
    }
    fn end(&mut self, tally: &Tally, out: &mut Out) -> Outcome<()>;
    /// In the place of all this, where the block is refused.
    fn refused(&mut self, report: &Report, out: &mut Out) -> Outcome<()>;
}

/// The style of a run: what is asked for, and the comparison with it.
pub fn of<'a>(asked: &Asked, block: &'a Block) -> Outcome<Box<dyn Style + 'a>> {
    let form: Option<Box<dyn Style + 'a>> = asked.form().map(|form| match form {
        Form::Table => Box::new(Table::new(block, asked.from.is_none())) as Box<dyn Style + 'a>,
        Form::Plain => Box::new(Plain),
        Form::Csv => Box::new(Csv { labels: &block.labels }),
        Form::Json => Box::new(Json { labels: Some(&block.labels) }),
        Form::Svg => Box::new(Picture::new(block, asked.window.clone())),
        Form::Vcd => Box::new(Vcd::new(block)),
    });
    with_comparison(asked, form, Some(&block.labels)).map(|style| style.unwrap_or_else(|| Box::new(Plain)))
}

/// The style of a refused block, where there is one other than words.
pub fn of_refused(asked: &Asked) -> Outcome<Option<Box<dyn Style>>> {
    let form: Option<Box<dyn Style>> = match asked.form() {
        Some(Form::Plain) => Some(Box::new(Plain)),
        Some(Form::Json) => Some(Box::new(Json { labels: None })),
        _ => None,
    };
    with_comparison(asked, form, None)
}

fn with_comparison<'a>(
    asked: &Asked, form: Option<Box<dyn Style + 'a>>, labels: Option<&'a crate::labels::Labels>,
) -> Outcome<Option<Box<dyn Style + 'a>>> {
    match &asked.expect {
        None => Ok(form),
        Some(path) => Ok(Some(Box::new(Expect::open(path, form, labels)?))),
    }
}
