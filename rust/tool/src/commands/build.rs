//! foldheron build: makes a block from its text, with the names of its signals beside it; or says where the text is at fault.

use super::Command;
use crate::args::{flag, with, Words};
use crate::block::{self, counts, Block};
use crate::commands::names::may_be_written;
use crate::files;
use crate::hash::sha256;
use crate::json::Object;
use crate::labels::{Labels, Text};
use crate::layout::Header;
use crate::names;
use crate::output::Out;
use crate::replace::{folder_of, look, replace};
use crate::sets::listed;
use crate::status::Status;
use crate::text::{self, refused, source::Source, written::keep};
use crate::trouble::{Outcome, Trouble};
use crate::walk::counted;
use std::path::{Path, PathBuf};

const NO_NAMES: &str = "--no-names";

pub static COMMAND: Command = Command {
    name: "build",
    does: "makes a block from its text, or says where the text is at fault",
    call: "FILE.strl [--to OUT] [--over] [--no-names] [--json]",
    options: &[
        with("--to", "OUT", "the file to write, or -o OUT; without it FILE.bin beside the text"),
        flag("--over", "write over a names file that was not made from a text, with the text's names and lines"),
        flag(NO_NAMES, "write no names file"),
        flag("--json", "an object"),
    ],
    more: "The text is kernel Esterel as docs/FORMAT.md has it; a folder stands for the block.strl in it. The names of its signals and the lines\n\
           of its statements go into the names file beside the block, for what run, show and why tell. A name that two locals have, or that reads\n\
           as the number of another signal, gets the signal's own number behind it there, as S_5. A names file that somebody made stays where\n\
           it is this block's, and so do its names where they are the text's but for _, as RUN_DUTY for RUNDUTY: --over writes the text's.\n\
           \n\
           A text that is refused is told as editors want it: FILE:LINE:COLUMN: NUMBER NAME: what is wrong, then the line with a mark under the\n\
           place. Of a 15, TEXT, it says what was found and what may stand there, which is found by trying it. Nothing is written then; a block\n\
           that is there is replaced where the new one is good, and a file that is no block is left as it is.\n",
    run,
};

fn run(words: &Words, out: &mut Out) -> Outcome<Status> {
    let [word] = words.exactly(["a text's file"])?;
    let path = files::text_path(word);
    let text = files::text(&path)?;
    let to = place(words, &path)?;
    let bytes = match text::read(&text) {
        Ok(bytes) => bytes,
        Err(why) => {
            let (status, object) = refused::tell(&path, &text, &why, words.has("--json"));
            object.map_or(Ok(()), |object| out.line(&object))?;
            return Ok(status);
        }
    };
    let source = Source::of(&text);
    assert!(source.bytes() == bytes, "the text is read otherwise than by the library");
    let mut block = block::unnamed(to, bytes)?;
    let changed = keep(&mut block.labels, &text, &source);
    let folder = folder_of(&block.path);
    let way = if path == Path::new(files::STDIN) { None } else { files::way(folder, &path) };
    block.labels.text = way.map(|path| Text { sha256: sha256(&text), path });
    put(words, &path, &block, &changed, out)?;
    Ok(Status::Good)
}

/// Writes the block and its names, and tells so.
fn put(words: &Words, path: &Path, block: &Block, changed: &[(String, String)], out: &mut Out) -> Outcome<()> {
    let beside = names::beside(&block.path);
    // A names file that is there would be the old block's.
    let is_named = !words.has(NO_NAMES) && (block.labels.signals() > 0 || beside.exists());
    block::may_be_put(&block.path, &block.bytes, true)?;
    let named = if is_named { named(&beside, block, words.has("--over"))? } else { Named::Not };
    look(&block.path)?;
    look(&beside)?;
    let before = files::block(&block.path).ok().filter(|bytes| !bytes.is_empty() && *bytes != block.bytes);
    replace(&block.path, &block.bytes)?;
    match &named {
        Named::Made(_) => replace(&beside, with_origin(path, &names::written(&block.bytes, &block.summary, &block.labels)).as_bytes())?,
        Named::Kept(given) => replace(&beside, names::written(&block.bytes, &block.summary, given).as_bytes())?,
        Named::Left(_) | Named::Not => {}
    }
    let told = if words.has("--json") { as_object(path, block, out) } else { in_words(path, block, before, out).and_then(|_| names_in_words(block, &named, changed, out)) };
    told.and_then(|_| out.flush()).map_err(|trouble| trouble.advise("what was asked is done"))
}

/// The file to write: never the text itself.
fn place(words: &Words, text: &Path) -> Outcome<PathBuf> {
    let to = match words.value("--to") {
        Some(word) if word == files::STDIN => return Err(Trouble::call("--to wants a file: - is standard input")),
        Some(word) => files::block_path(word),
        None if text == Path::new(files::STDIN) => return Err(Trouble::call("a text from standard input has no place beside it: say --to FILE")),
        None => text.with_extension("bin"),
    };
    if files::same(&to, text) || files::same(&names::beside(&to), text) {
        return Err(Trouble::call(format!("{} would be written over: say --to another file", files::shown(text))));
    }
    Ok(to)
}

/// What becomes of the names file.
enum Named {
    /// It is not asked for.
    Not,
    /// It is made from the text; with the names of this block that it had before, if it had any.
    Made(Option<Labels>),
    /// It has names that somebody gave, and is this block's: it stays.
    Left(Labels),
    /// It has names that somebody gave to another block, which are the text's but for '_': they stay.
    Kept(Labels),
}

fn with_origin(path: &Path, names: &str) -> String {
    let name = path.file_name().map_or("a text".to_string(), |name| files::printable(&name.to_string_lossy()));
    let first = format!("{}\n", names::FIRST);
    names.replacen(&first, &format!("{}{}{}\n", first, names::FROM, if name == files::STDIN { "standard input" } else { &name }), 1)
}

/// A file that was made from a text is made anew. Names that somebody gave stay where they are this block's, or the text's but for '_'; others are not written over, but where that is asked for.
fn named(to: &Path, block: &Block, over: bool) -> Outcome<Named> {
    let bytes = files::first(to, names::MOST).unwrap_or_default();
    let text = String::from_utf8_lossy(&bytes);
    let before = names::read(&text, &block.bytes, &block.summary).ok();
    if bytes.is_empty() || names::is_made(&text) {
        return Ok(Named::Made(before));
    }
    if over || !text.starts_with(names::FIRST) {
        return may_be_written(to, block, over).map(|_| Named::Made(before));
    }
    if let Some(before) = before {
        return Ok(Named::Left(before));
    }
    let trouble = Trouble::call(format!("{} has other names than the text, and was not made from one", files::shown(to)));
    let trouble = trouble.advise("say --over to write over them, or --no-names to leave them; nothing is written");
    names::carried(&text, &block.summary, &block.labels).map(Named::Kept).ok_or(trouble)
}

fn in_words(path: &Path, block: &Block, before: Option<Vec<u8>>, out: &mut Out) -> Outcome<()> {
    let shown = files::shown(&block.path);
    out.line(&format!("{}: built from {}: {}", shown, files::shown(path), counts(&block.summary, block.bytes.len())))?;
    let old = before.as_deref().and_then(Header::of).map(|header| header.version);
    if old == Some(block.summary.version) {
        out.line(&format!("it had other bytes under version {} before: where the old block is in use, the new one wants a number of its own", block.summary.version))?;
    }
    Ok(())
}

fn names_in_words(block: &Block, named: &Named, changed: &[(String, String)], out: &mut Out) -> Outcome<()> {
    let file = files::shown(&names::beside(&block.path));
    let differ = |given: &Labels| -> Vec<String> {
        let others = (0..given.signals()).filter(|n| given.name(*n) != block.labels.name(*n));
        others.map(|n| format!("{} for {}", given.signal(n), block.labels.signal(n))).collect()
    };
    match named {
        Named::Not => return Ok(()),
        Named::Made(_) => out.line(&format!("{}: {}", file, counted(block.labels.signals() as u64, "name")))?,
        Named::Left(_) => out.line(&format!("{}: left as it is, for somebody gave its names", file))?,
        Named::Kept(_) => out.line(&format!("{}: this block's now, with the names that somebody gave", file))?,
    }
    match named {
        Named::Made(_) => changed.iter().try_for_each(|(name, kept)| out.line(&format!("  {} is kept as {}: another signal has that name, or that number", name, kept)))?,
        Named::Left(given) | Named::Kept(given) if differ(given).is_empty() => out.line("  --over writes the lines of the text beside them")?,
        Named::Left(given) | Named::Kept(given) => out.line(&format!("  it has {}; --over writes the text's names and lines", listed(&differ(given))))?,
        Named::Not => {}
    }
    match named {
        Named::Made(Some(old)) if !differ(old).is_empty() => out.line(&format!("  it had {} before", listed(&differ(old)))),
        _ => Ok(()),
    }
}

fn as_object(path: &Path, block: &Block, out: &mut Out) -> Outcome<()> {
    let object = Object::new().number("refusal", 0u64).text("file", &path.to_string_lossy()).text("block", &block.path.to_string_lossy());
    let object = object.number("version", block.summary.version).number("statements", block.summary.statements).number("bytes", block.bytes.len() as u64);
    out.line(&object.text("sha256", &sha256(&block.bytes)).done())
}
