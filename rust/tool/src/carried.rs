//! A block that is written from another one into a file of its own, with the names of the signals that keep their numbers in the names file beside it.

use crate::args::Words;
use crate::block::{self, Block};
use crate::commands::names::may_be_written;
use crate::everyday;
use crate::files;
use crate::labels::Labels;
use crate::layout::{edition, EVERYDAY};
use crate::names;
use crate::replace::replace;
use crate::sets::listed;
use crate::status::Status;
use crate::trouble::{Outcome, Trouble};
use crate::walk::{counted, grouped};
use std::path::{Path, PathBuf};

/// The file of --to: never the block itself, nor standard output.
pub fn place(words: &Words, what: &str, block: &Path) -> Outcome<PathBuf> {
    let word = words.value("--to").ok_or_else(|| Trouble::call(format!("--to is missing: the file to write {} into", what)))?;
    if word == files::STDIN {
        return Err(Trouble::call("--to wants a file: - is standard input"));
    }
    let to = files::block_path(word);
    if files::same(&to, block) {
        return Err(Trouble::call(format!("--to {} would write over the file that is read", files::shown(&to))));
    }
    Ok(to)
}

/// Gives the new block the old one's names of these signals.
pub fn name(new: &mut Block, old: &Block, signals: impl Iterator<Item = usize>) -> Outcome<()> {
    for signal in signals {
        if let Some(name) = old.labels.name(signal) {
            new.labels.give(signal, name).map_err(|why| Trouble::new(Status::Refused, why))?;
        }
    }
    Ok(())
}

/// Writes the new block and its names, where they may be written; answers whether the names are beside it.
pub fn put(new: &Block, old: &Block, over: bool) -> Outcome<bool> {
    let beside = names::beside(&new.path);
    // Where pump.bin is written into pump.out one names file is beside both, and stays the block's own.
    let is_carried = named(&new.labels) > 0 && !files::same(&beside, &names::beside(&old.path));
    look(&new.path, over)?;
    block::may_be_put(&new.path, &new.bytes, over)?;
    let is_written = is_carried && may_be_named(&beside, new, over)?;
    replace(&new.path, &new.bytes)?;
    if is_written {
        replace(&beside, names::written(&new.bytes, &new.summary, &new.labels).as_bytes())?;
    }
    Ok(is_carried)
}

/// What is written here is of edition 1: a block of edition 2 is somebody's source, and --over does not take its place.
fn look(to: &Path, over: bool) -> Outcome<()> {
    let is_source = over && files::size(to).is_some() && files::block(to).map_or(false, |bytes| edition(&bytes) == EVERYDAY && everyday::is_good(&bytes));
    if !is_source {
        return Ok(());
    }
    let trouble = Trouble::call(format!("{} is a block of edition 2: it is left as it is", files::shown(to)));
    Err(trouble.advise("--over takes the place of a block of edition 1: remove it where it is not wanted any more, or name another file"))
}

/// How many signals have a name.
pub fn named(labels: &Labels) -> usize {
    (0..labels.signals()).filter(|n| labels.name(*n).is_some()).count()
}

/// Whether the names have to be written: not where the file has these very names already, with what else somebody wrote there. Other names of this block are left, but where that is asked for.
fn may_be_named(to: &Path, new: &Block, over: bool) -> Outcome<bool> {
    let text = files::first(to, names::MOST).map_or_else(|_| String::new(), |bytes| String::from_utf8_lossy(&bytes).into_owned());
    match names::read(&text, &new.bytes, &new.summary) {
        Ok(before) if before == new.labels => Ok(false),
        Ok(before) if !over => {
            let has = (0..before.signals()).filter(|n| before.name(*n) != new.labels.name(*n)).map(|n| format!("{} for {}", before.signal(n), new.labels.signal(n)));
            let trouble = Trouble::call(format!("{} has other names: {}", files::shown(to), listed(&has.collect::<Vec<_>>())));
            Err(trouble.advise("say --over to write over them, or --to another file; nothing is written"))
        }
        _ => may_be_written(to, new, over).map(|_| true),
    }
}

/// What is said of the names: that they were carried along, with `besides` on those that were not, or that one names file is beside both; where there are none, that a
/// file that is there is not for this block.
pub fn told(new: &Block, old: &Block, is_carried: bool, besides: &str) -> Option<String> {
    let (beside, shown) = (files::shown(&names::beside(&new.path)), files::shown(&new.path));
    match (is_carried, named(&new.labels)) {
        (true, count) => Some(format!("{}: {} carried along{}", beside, counted(count as u64, "name"), besides)),
        (false, 0) => (names::beside(&new.path).exists() && !names::fits(&new.path, &new.bytes, &new.summary))
            .then(|| format!("{} is there, and its names are not this block's: remove it, or write others with foldheron names --over", beside)),
        (false, _) => Some(format!("{} stays the names file of {}: with another name before its ending {} would have one of its own", beside, files::shown(&old.path), shown)),
    }
}

/// A count before and after.
pub fn from_to(what: &str, old: u64, new: u64) -> String {
    match old == new {
        true => format!("{} {} as before", what, grouped(old)),
        false => format!("{} {} to {}", what, grouped(old), grouped(new)),
    }
}

/// What grew, by name: before and after.
pub fn growth(old: &Block, new: &Block) -> [(&'static str, u64, u64); 4] {
    [
        ("statements", old.summary.statements.into(), new.summary.statements.into()),
        ("pauses", old.summary.pauses.into(), new.summary.pauses.into()),
        ("locals", old.summary.locals.into(), new.summary.locals.into()),
        ("bytes", old.bytes.len() as u64, new.bytes.len() as u64),
    ]
}
