//! foldheron names: writes the names file of a block, or shows what its signals are called.

use super::Command;
use crate::args::{flag, with, Words};
use crate::block::{self, Block};
use crate::files;
use crate::names;
use crate::output::Out;
use crate::replace::replace;
use crate::sets::listed;
use crate::status::Status;
use crate::trouble::{Outcome, Trouble};
use crate::walk::counted;
use std::ffi::OsStr;
use std::path::{Path, PathBuf};

pub static COMMAND: Command = Command {
    name: "names",
    does: "writes the names file of a block, or shows its signals' names",
    call: "[--to FILE] [--over] FILE [NAME..]",
    options: &[
        with("--to", "FILE", "write the names into FILE, not beside the block"),
        flag("--over", "write them although signals that have a name there would lose it, or the names there are another block's"),
    ],
    more: "The names stand in the order of the signals: the inputs, the outputs, the locals; - leaves one without a name, and so do\n\
           names that are not given. A name is letters, digits and _, a letter first, 32 at most. The names of block.bin are\n\
           kept beside it in block.names, with the block's version, its statement count and the SHA-256 of its bytes: with\n\
           another block they are not used. Where a signal that has a name there would be without one, or where the names there are\n\
           another block's, nothing is written but with --over. Without a NAME the command prints what each signal is called.\n",
    run,
};

fn run(words: &Words, out: &mut Out) -> Outcome<Status> {
    let (file, given) = words.free.split_first().ok_or_else(|| Trouble::call("a block's file is missing"))?;
    if given.is_empty() {
        return print(words, file, out);
    }
    let path = files::block_path(file);
    let mut block = block::either_unnamed(path.clone(), files::block(&path)?)?;
    for (signal, name) in given.iter().enumerate().filter(|(_, name)| *name != "-") {
        block.labels.give(signal, &name.to_string_lossy()).map_err(|why| Trouble::call(format!("name {}: {}", signal + 1, why)))?;
    }
    let to = place(words, &path)?;
    may_be_written(&to, &block, words.has("--over"))?;
    let had_lines = names::is_made(&String::from_utf8_lossy(&files::first(&to, names::MOST).unwrap_or_default()));
    replace(&to, names::written(&block.bytes, &block.summary, &block.labels).as_bytes())?;
    out.line(&format!("{}: {} written", files::shown(&to), counted(given.iter().filter(|name| *name != "-").count() as u64, "name")))?;
    if had_lines {
        out.line("  the lines of the text that stood there are dropped: foldheron build --over writes them again, with the text's names")?;
    }
    Ok(Status::Good)
}

/// That the file holds names or nothing, and, but where that is asked for, not another block's nor one that a signal would lose.
pub fn may_be_written(to: &Path, block: &Block, over: bool) -> Outcome<()> {
    let bytes = files::first(to, names::MOST).unwrap_or_default();
    if to.exists() && !bytes.is_empty() && !bytes.starts_with(names::FIRST.as_bytes()) {
        return Err(Trouble::call(format!("{} is there and holds no names: it is left as it is", files::shown(to))));
    }
    if over || bytes.is_empty() {
        return Ok(());
    }
    let before = match names::read(&String::from_utf8_lossy(&bytes), &block.bytes, &block.summary) {
        Ok(before) => before,
        Err(why) => {
            let trouble = Trouble::call(format!("{} has names that are not this block's: {}", files::shown(to), why));
            return Err(trouble.advise("say --over to write over them, or --to FILE to write elsewhere; nothing is written"));
        }
    };
    let dropped: Vec<String> = (0..before.signals()).filter(|n| block.labels.name(*n).is_none()).filter_map(|n| before.name(n).map(str::to_string)).collect();
    if dropped.is_empty() {
        return Ok(());
    }
    let said = format!("{} has {} that would be dropped: {}", files::shown(to), counted(dropped.len() as u64, "name"), listed(&dropped));
    Err(Trouble::call(said).advise("give every signal its name, in their order, or say --over; nothing is written"))
}

fn print(words: &Words, file: &OsStr, out: &mut Out) -> Outcome<Status> {
    if let Some(option) = ["--to", "--over"].iter().find(|option| words.has(option)) {
        return Err(Trouble::call(format!("{} wants names to write", option)));
    }
    let path = files::block_path(file);
    let bytes = files::block(&path)?;
    let block = block::either(words, path, bytes)?;
    for signal in 0..block.labels.signals() {
        let sort = block.labels.sort(signal).map_or("", |sort| sort.word());
        out.line(&format!("{:6} {:3}  {}", sort, signal, block.labels.signal(signal)))?;
    }
    Ok(Status::Good)
}

/// Where the names are written.
fn place(words: &Words, block: &Path) -> Outcome<PathBuf> {
    let to = words.value("--to").map_or_else(|| names::beside(block), PathBuf::from);
    if block == Path::new(files::STDIN) && !words.has("--to") {
        return Err(Trouble::call("a block from standard input has no place beside it: say --to FILE"));
    }
    Ok(to)
}
