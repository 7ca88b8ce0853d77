//! foldheron run: a block on sets of inputs, as a table for people or as lines for programs.

pub mod asked;
mod csv;
mod expect;
pub mod inputs;
mod json;
pub mod keep;
pub mod picture;
pub mod plain;
mod progress;
pub mod style;
mod vcd;
mod waits;
pub mod words;

use crate::args::{flag, with, Words};
use crate::block::{self, Block, Report};
use crate::cause::likely_inputs;
use crate::commands::Command;
use crate::files;
use crate::names;
use crate::output::{warn, Out};
use crate::status::Status;
use crate::trouble::{Outcome, Trouble};
use asked::{Asked, Form};
use inputs::{Next, Source};
use keep::Kept;
use progress::Progress;
use std::path::Path;
use style::{Step, Style, Tally};

const CALL: &str = "FILE [--inputs FILE | --in SETS] [--plain | --csv | --json | --svg | --vcd] [--expect FILE] [--waits]
              [--from-instant N] [--to-instant N]
              [--from STATE] [--to STATE [--over]] [--log FILE] [--names FILE | --no-names]";

pub static COMMAND: Command = Command {
    name: "run",
    does: "runs a block on sets of inputs",
    call: CALL,
    options: &[
        with("--inputs", "FILE", "sets of 8 bytes each, read as they come; without it, and without --in, inputs.bin beside the block"),
        with("--in", "SETS", IN_HELP),
        flag("--plain", "exactly the lines of the run program; a missing file is empty, and a line on standard error says so"),
        flag("--csv", "a line an instant with a column for each signal: 1, 0, or x for the outputs of a refused instant"),
        flag("--json", "an object an instant, on a line of its own; the outputs of a refused instant are null"),
        flag("--svg", "a timing diagram as a picture: present is high, absent low, and what is not known a hatched box"),
        flag("--vcd", "a value change dump, for programs that show waves: a unit of time is an instant, and x is not known"),
        with(asked::FIRST, "N", "the first instant of a picture, which has 240 at most; without it the picture begins with the first, or\nends with --to-instant"),
        with(asked::LAST, "N", "the last instant of a picture"),
        with("--expect", "FILE", "compare with FILE, which has the lines of --plain, and say which is the first that differs;\nrefused instants that are expected count as good"),
        flag("--waits", "of a 13 with inputs not heard, which input, or which two, would settle it: found by trying every status\nof each; in the table and with --json"),
        with("--from", "STATE", "go on from the state in STATE; without it the run begins afresh"),
        with("--to", "STATE", "save the next state in STATE, which may be the file of --from"),
        flag("--over", "save it over another block's state too; without it a state that does not name this block is left as it is"),
        with("--log", "FILE", "put a record behind FILE for each answered instant"),
        names::OPTION,
        names::NO_OPTION,
    ],
    more: MORE,
    run,
};

pub const IN_HELP: &str = "the sets in words, as \"DEMAND; DEMAND FAULT; -\": semicolons, or ends of lines, between sets,
spaces or commas between inputs, - for a set without an input; an input is called by its name, or by
its number as i0; ?NAME is an input that is not heard, and ? a set of which no input is heard; without
a ? what is not named is absent";

const MORE: &str = "In the table + marks what came and - what went: of inputs since the instant before, of outputs since the last answered one.
In the first instant after --from what was before is not known, and nothing is marked; nor is an input that was not heard then.
An instant with inputs not heard is answered where they make no difference; else it is refused with 13. ? marks them, in the
columns of --csv too, and --json lists them as unheard. The sets of a file have every input heard. An input that the block does not
have may be named by its number, as i9: the instant is then refused with 11. As not heard, ?i9, it cannot be told to the library,
which is given the inputs that are heard, so that is a wrong call.
A refused instant has no outputs: x stands in their place, and the state is as it was, so the next instant goes on from there.

A picture has 240 instants at most, in bands one below the other: the first ones, or those that --from-instant and --to-instant name; above them it says
which of how many they are; where the run has none of them that is a wrong call, and nothing is saved. All sets are run in any case.
Of a 13 the outputs that are known all the same are dashed; none of them is to be switched.

What is saved: the state is written beside STATE, flushed to the disk and put in its place in one step, after the last
instant; records are flushed before that. Killed at any moment, STATE holds the old state or the new one, whole. Killed between
the two, the log has this run's records and STATE the old state: the log is ahead and never behind. To go on, run the same
inputs again; their records then stand in the log twice. A record that was cut off by a kill is told by the next run with
--log, which writes nothing. A run that ends with 5 leaves STATE as it was, and the log as long as it was. Two runs at once on
one STATE or one log are not kept apart.

A log does not name its block. A log whose records cannot be this block's (they tell of signals that it does not have so) is left as it
is, with status 8; its first and its last 1,024 records are looked at. One that passes may be another block's even so: keep a log
for each block.
";

fn run(words: &Words, out: &mut Out) -> Outcome<Status> {
    let asked = Asked::of(words)?;
    asked.look_at_window(words)?;
    let bytes = asked.block_bytes()?;
    if let Err(why) = foldheron::check(&bytes) {
        return refused(&asked, &Report::of(&asked.block, &bytes, why), out);
    }
    let path = asked.block.clone();
    let block = if asked.wants_names() || names::is_named(words) { block::checked(words, path, bytes)? } else { block::unnamed(path, bytes)? };
    let mut source = asked.source(&block)?;
    let state = match keep::begins(asked.from.as_deref(), &block)? {
        Ok(state) => state,
        Err(down) => return keep::not_taken(asked.from.as_deref().unwrap_or_else(|| Path::new("")), &down, asked.form() == Some(Form::Json), out),
    };
    let mut kept = Kept::open(&asked, &block, state)?;
    let mut style = style::of(&asked, &block)?;
    let ended = all(&asked, &block, &mut source, &mut kept, style.as_mut(), out);
    match ended.and_then(|tally| kept.save().map(|_| tally)) {
        Ok(tally) => {
            hint(&asked, &block, &tally);
            Ok(asked.status(&tally))
        }
        Err(trouble) => Err(kept.give_up(trouble)),
    }
}

/// Runs every set, and prints what its style says of it. Before the run waits for inputs, what is printed is written.
fn all(asked: &Asked, block: &Block, source: &mut Source, kept: &mut Kept, style: &mut dyn Style, out: &mut Out) -> Outcome<Tally> {
    let mut tally = Tally::default();
    let mut progress = Progress::new(source.total(), style.is_silent());
    style.begin(out)?;
    loop {
        if !source.is_ready() {
            out.flush()?;
        }
        match source.next()? {
            Next::Set(inputs) => {
                let answer = kept.instant(block, inputs)?;
                let is_looked_for = asked.waits && inputs.unheard != 0 && answer.number() == 13;
                let waits = Some(()).filter(|_| is_looked_for).map(|_| waits::found(block, kept.state(), inputs));
                let step = Step { number: tally.instants + 1, inputs, answer, waits };
                tally.count(&step);
                style.step(&step, out)?;
                progress.at(tally.instants);
            }
            Next::Short(left) => tally.short = left,
            Next::End => break,
        }
    }
    progress.done();
    tally.state = kept.state().to_vec();
    style.end(&tally, out)?;
    out.flush()?;
    Ok(tally)
}

/// Where sets were refused or cut off, what is likely to be wrong with their file.
fn hint(asked: &Asked, block: &Block, tally: &Tally) {
    let is_odd = tally.short > 0 || tally.refused.iter().any(|(number, _)| *number == 11);
    let file = match asked.inputs_file() {
        Some(file) if is_odd && asked.speaks_in_words() && files::size(file).is_some() => file,
        _ => return,
    };
    let bytes = files::first(file, FIRST).unwrap_or_default();
    if let Some(cause) = likely_inputs(&bytes, block.labels.inputs().len()) {
        warn(format!("{}: {}", files::shown(file), cause.what), &cause.advice);
    }
}

/// How many bytes of the inputs are looked at for that.
const FIRST: usize = 512;

/// A refused block: a line of its own where lines are asked for, else words on standard error.
fn refused(asked: &Asked, report: &Report, out: &mut Out) -> Outcome<Status> {
    if let Some(mut style) = style::of_refused(asked)? {
        style.refused(report, out)?;
        return Ok(asked.refused_status());
    }
    let mut trouble = Trouble { status: Status::BlockRefused, lines: report.lines() };
    if let Some(inputs) = asked.inputs_file().filter(|inputs| block::is_good(inputs)) {
        trouble = trouble.advise(format!("but {} is a good block: the block and the inputs are swapped", files::shown(inputs)));
    }
    Err(trouble)
}
