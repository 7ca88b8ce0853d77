//! A block that a command is given: its bytes, and either its counts and what its signals are called, or why it is refused, in words.

use crate::args::Words;
use crate::cause::{likely, Cause};
use crate::commands::check::refused;
use crate::everyday;
use crate::files;
use crate::labels::Labels;
use crate::layout::{edition, EVERYDAY};
use crate::names;
use crate::output::Out;
use crate::refusal;
use crate::replace::replace;
use crate::status::Status;
use crate::trouble::{Outcome, Trouble};
use crate::walk::counted;
use foldheron::{check, Refusal, Summary};
use std::ffi::OsStr;
use std::path::{Path, PathBuf};

#[derive(Clone)]
pub struct Block {
    pub path: PathBuf,
    pub bytes: Vec<u8>,
    pub summary: Summary,
    pub labels: Labels,
}

impl Block {
    /// What it is called: its file without the ending, or its folder.
    pub fn title(&self) -> String {
        let folder = self.path.parent().and_then(Path::file_name);
        let name = match self.path.file_name() {
            Some(name) if name == "block.bin" => folder.or(Some(name)),
            _ => self.path.file_stem(),
        };
        name.map_or("a block".to_string(), |name| files::printable(&name.to_string_lossy()))
    }

    /// Its counts in words, with its edition where that is not 1.
    pub fn counts(&self) -> String {
        let edition = if edition(&self.bytes) == EVERYDAY { "edition 2, " } else { "" };
        format!("{}{}", edition, counts(&self.summary, self.bytes.len()))
    }
}

/// Reads the block that a word names, and its names. A refused one ends the command.
pub fn load(words: &Words, word: &OsStr) -> Outcome<Block> {
    let path = files::block_path(word);
    let bytes = files::block(&path)?;
    checked(words, path, bytes)
}

/// The same, with an object of check in the place of the words on a refused block where objects are asked for; there is no block then.
pub fn load_or_tell(words: &Words, word: &OsStr, out: &mut Out) -> Outcome<Option<Block>> {
    let path = files::block_path(word);
    let bytes = files::block(&path)?;
    match check(&bytes) {
        Err(why) if words.has("--json") => out.line(&refused(&Report::of(&path, &bytes, why)).done()).map(|_| None),
        _ => checked(words, path, bytes).map(Some),
    }
}

/// The same of a block that is read already.
pub fn checked(words: &Words, path: PathBuf, bytes: Vec<u8>) -> Outcome<Block> {
    named(words, unnamed(path, bytes)?)
}

/// The same of a block of either edition.
pub fn either(words: &Words, path: PathBuf, bytes: Vec<u8>) -> Outcome<Block> {
    named(words, either_unnamed(path, bytes)?)
}

fn named(words: &Words, mut block: Block) -> Outcome<Block> {
    block.labels = names::labels(words, &block.path, &block.bytes, &block.summary)?;
    Ok(block)
}

/// The same without a look at its names.
pub fn unnamed(path: PathBuf, bytes: Vec<u8>) -> Outcome<Block> {
    with_counts(check(&bytes), path, bytes)
}

pub fn either_unnamed(path: PathBuf, bytes: Vec<u8>) -> Outcome<Block> {
    with_counts(everyday::summary(&bytes), path, bytes)
}

fn with_counts(told: Result<Summary, Refusal>, path: PathBuf, bytes: Vec<u8>) -> Outcome<Block> {
    match told {
        Ok(summary) => Ok(Block { path, bytes, summary, labels: Labels::numbered(&summary) }),
        Err(why) => Err(Trouble { status: Status::BlockRefused, lines: Report::of(&path, &bytes, why).lines() }),
    }
}

/// The counts of a good block in words.
pub fn counts(summary: &Summary, bytes: usize) -> String {
    let numbers = [
        (u64::from(summary.inputs), "input"),
        (summary.outputs.into(), "output"),
        (summary.locals.into(), "local"),
        (summary.statements.into(), "statement"),
        (summary.pauses.into(), "pause"),
        (bytes as u64, "byte"),
    ];
    let counted: Vec<String> = numbers.iter().map(|(n, noun)| counted(*n, noun)).collect();
    format!("version {}, {}", summary.version, counted.join(", "))
}

/// All that is said of a refused block.
pub struct Report {
    pub path: PathBuf,
    /// Whether it is refused as a block of edition 2.
    pub is_everyday: bool,
    pub refusal: Refusal,
    pub statement: Option<usize>,
    pub record: String,
    pub wrong: String,
    pub cause: Option<Cause>,
}

impl Report {
    pub fn of(path: &Path, block: &[u8], why: Refusal) -> Report {
        Report {
            path: path.to_path_buf(),
            is_everyday: edition(block) == EVERYDAY && why.number != 3,
            refusal: why,
            statement: refusal::statement_number(block, &why),
            record: if refusal::is_conversions(block, &why) { "the whole block".to_string() } else { refusal::record(block, why.place) },
            wrong: refusal::wrong(block, &why),
            cause: likely(block, &why),
        }
    }

    pub fn advice(&self) -> String {
        self.cause.as_ref().map_or_else(|| refusal::advice(self.refusal.number).to_string(), |cause| cause.advice.clone())
    }

    pub fn lines(&self) -> Vec<String> {
        let edition = if self.is_everyday { "edition 2: " } else { "" };
        let statement = self.statement.map_or(String::new(), |number| format!(" (statement {})", number));
        let mut lines = vec![
            format!("{}: {}refused with {}, at offset {}{}", files::shown(&self.path), edition, refusal::title(self.refusal.number), self.refusal.place, statement),
            format!("there:         {}", self.record),
            format!("what is wrong: {}", self.wrong),
        ];
        if let Some(cause) = &self.cause {
            lines.push(format!("likely cause:  {}", cause.what));
        }
        lines.push(format!("what to do:    {}", self.advice()));
        lines
    }
}

/// Whether a file holds a good block, of either edition. What has no end, or has to be waited for, is not looked at.
pub fn is_good(path: &Path) -> bool {
    files::size(path).is_some() && files::block(path).map_or(false, |bytes| everyday::is_good(&bytes))
}

/// Writes a block into a file, where it may.
pub fn put(to: &Path, block: &[u8], over: bool) -> Outcome<()> {
    may_be_put(to, block, over)?;
    replace(to, block)
}

/// A block is written into a file that is not there, that is empty or has these bytes; over another block only if that is asked for.
pub fn may_be_put(to: &Path, block: &[u8], over: bool) -> Outcome<()> {
    let is_free = matches!(files::size(to), None | Some(0)) || files::block(to)? == block;
    if is_free || over && is_good(to) {
        return Ok(());
    }
    let left = if over { "is there and is no good block" } else { "is there, with other bytes" };
    let trouble = Trouble::call(format!("{} {}: it is left as it is", files::shown(to), left));
    Err(if over { trouble } else { trouble.advise("with --over the block takes its place, where it is a good block") })
}
