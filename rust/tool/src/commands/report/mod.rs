//! foldheron report: a block, a run of it and every refusal explained, with pictures, as one page that needs no other file and no network.

mod page;

use super::show::Shown;
use super::Command;
use crate::args::{with, Words};
use crate::block::{self, Block};
use crate::files;
use crate::layout::State;
use crate::names;
use crate::output::Out;
use crate::replace::replace;
use crate::run::asked::{self, Asked};
use crate::run::inputs::{Next, Source};
use crate::run::picture::Picture;
use crate::run::style::{Step, Style, Tally};
use crate::run::words::Table;
use crate::run::{keep, IN_HELP};
use crate::sets::Given;
use crate::status::Status;
use crate::trouble::{Outcome, Trouble};
use foldheron::Instant;
use std::path::Path;

pub static COMMAND: Command = Command {
    name: "report",
    does: "writes a page on a block and a run of it, with pictures",
    call: "FILE [--inputs FILE | --in SETS] [--from STATE] [--from-instant N] [--to-instant N] [--to PAGE]\n                 [--names FILE | --no-names]",
    options: &[
        with("--inputs", "FILE", "sets of 8 bytes each; without it, and without --in, inputs.bin beside the block"),
        with("--in", "SETS", IN_HELP),
        with("--from", "STATE", "go on from the state in STATE; without it the run begins afresh"),
        with(asked::FIRST, "N", "the first instant of the diagram, as run has it with --svg"),
        with(asked::LAST, "N", "the last instant of the diagram"),
        with("--to", "PAGE", "write the page into PAGE, which is not there yet, is empty or is such a page; without it the page is printed"),
        names::OPTION,
        names::NO_OPTION,
    ],
    more: "One page, for a browser or for print: the block as a chart, as text and as a tree, the run as a timing diagram and as a table, each refused instant\n\
           with its reason, of a 13 with a picture of what waits for what, the counts, and the versions of the block and of this program. It loads nothing.\n\
           All sets are run; the table has as many instants as the diagram, and of refused instants that are alike (the same state, the same inputs) one\n\
           is explained, 24 at most. No state and no log is written. It ends with the statuses of run.\n",
    run,
};

/// Refusals that are explained at most.
const EXPLAINED: usize = 24;

/// An instant that was refused: those that are like it, the state in which it began, its inputs and its answer.
pub struct Refused {
    pub numbers: Vec<u64>,
    pub state: Vec<u8>,
    pub given: Given,
    pub answer: Instant,
}

/// All that the page is made from.
pub struct Report<'a> {
    block: &'a Block,
    picture: Picture<'a>,
    table: String,
    tally: Tally,
    refused: Vec<Refused>,
    /// How many refused instants are not explained.
    more: u64,
    /// Where the inputs and the first state are from, in words.
    from: (String, String),
}

fn run(words: &Words, out: &mut Out) -> Outcome<Status> {
    let mut asked = Asked::of(words)?;
    let to = asked.to.take();
    if let Some(to) = &to {
        may_be_written(to)?;
    }
    let block = block::checked(words, asked.block.clone(), asked.block_bytes()?)?;
    let mut source = asked.source(&block)?;
    let state = match keep::begins(asked.from.as_deref(), &block)? {
        Ok(state) => state,
        Err(down) => return keep::not_taken(asked.from.as_deref().unwrap_or_else(|| Path::new("")), &down, false, out),
    };
    let report = Report::of(&asked, &block, &mut source, state)?;
    report.picture.look(&report.tally)?;
    let page = page::told(&report)?;
    match &to {
        Some(to) => {
            replace(to, page.as_bytes())?;
            out.line(&format!("{}: the report on {}", files::shown(to), files::shown(&block.path)))?;
        }
        None => out.text(&page)?,
    }
    Ok(asked.status(&report.tally))
}

/// A page is written over nothing but such a page.
fn may_be_written(to: &Path) -> Outcome<()> {
    let begun = matches!(files::size(to), None | Some(0)) || files::first(to, page::BEGINS.len()).map_or(false, |bytes| bytes == page::BEGINS.as_bytes());
    if begun {
        return Ok(());
    }
    Err(Trouble::call(format!("{} is there and is no report: it is left as it is", files::shown(to))).advise("remove it where it is not wanted any more, or name another file"))
}

impl<'a> Report<'a> {
    /// Runs every set, and keeps what the page tells of it.
    fn of(asked: &Asked, block: &'a Block, source: &mut Source, mut state: Vec<u8>) -> Outcome<Report<'a>> {
        let from = (asked.inputs_in_words(), asked.from.as_deref().map_or("afresh".to_string(), |path| format!("from the state in {}", files::shown(path))));
        let mut report = Report { block, picture: Picture::new(block, asked.window.clone()), table: String::new(), tally: Tally::default(), refused: Vec::new(), more: 0, from };
        loop {
            let inputs = match source.next()? {
                Next::Set(inputs) => inputs,
                Next::Short(left) => {
                    report.tally.short = left;
                    continue;
                }
                Next::End => break,
            };
            let answer = keep::one(block, &mut state, inputs);
            let step = Step { number: report.tally.instants + 1, inputs, answer, waits: None };
            report.tally.count(&step);
            report.picture.keep(&step);
            report.keep(&step, &state);
        }
        report.tally.state = state;
        report.table = report.tabled(asked)?;
        Ok(report)
    }

    /// The table of the instants that are drawn. Of what was before it knows where it begins with the first instant of a run from fresh.
    fn tabled(&self, asked: &Asked) -> Outcome<String> {
        let mut kept = Out::keeping();
        let mut table = Table::new(self.block, asked.from.is_none() && *asked.window.start() == 1);
        table.fit(&self.picture.shown);
        table.begin(&mut kept)?;
        for shown in &self.picture.shown {
            table.step(&Step { number: shown.number, inputs: shown.inputs, answer: shown.answer, waits: None }, &mut kept)?;
        }
        table.key(&self.tally, &mut kept)?;
        Ok(kept.kept())
    }

    /// Keeps a refused instant, with those that are like it. It left the state as it was.
    fn keep(&mut self, step: &Step, state: &[u8]) {
        if step.answer.number() == 0 {
            return;
        }
        match self.refused.iter().position(|refused| refused.state == state && refused.given == step.inputs) {
            Some(like) => self.refused[like].numbers.push(step.number),
            None if self.refused.len() < EXPLAINED => self.refused.push(Refused { numbers: vec![step.number], state: state.to_vec(), given: step.inputs, answer: step.answer }),
            None => self.more += 1,
        }
    }

    /// The block in the state in which the run leaves it.
    fn shown(&self) -> Shown<'a> {
        Shown::of(self.block, State::of(&self.tally.state))
    }
}
