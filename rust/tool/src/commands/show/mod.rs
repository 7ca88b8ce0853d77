//! foldheron show: a block as an indented tree, as a chart or as a graph, with what is active in a state.

mod dot;
pub mod picture;

use super::Command;
use crate::args::{flag, with, Words};
use crate::block::{self, Block};
use crate::everyday;
use crate::files;
use crate::labels::Labels;
use crate::layout::State;
use crate::names;
use crate::output::{warn, Out};
use crate::refusal::is_conversions;
use crate::run::keep;
use crate::saved::in_words;
use crate::status::Status;
use crate::text;
use crate::text::written::{replaced, with_labels};
use crate::tree;
use crate::trouble::{Outcome, Trouble};
use crate::walk::{walk, Statement};
use foldheron::Refusal;
use std::ops::Range;
use std::path::Path;

pub static COMMAND: Command = Command {
    name: "show",
    does: "prints a block as an indented tree, or as text",
    call: "[--from STATE] [--text | --svg | --dot] [--names FILE | --no-names] FILE",
    options: &[
        with("--from", "STATE", "mark the pauses that are active in STATE"),
        flag("--text", "the block's text: the library's, with the signals' names where these may stand in a text"),
        flag("--svg", "a chart as a picture: a sequence one below the other, a parallel side by side, the others round what they hold"),
        flag("--dot", "the tree as a graph for the program dot"),
        names::OPTION,
        names::NO_OPTION,
    ],
    more: "A line a statement: its number, its offset in the file, its line in the text where the block was built from one, and the\n\
           statement with its signal; of a pause its number, of an exit its depth and the number of the trap that it ends. Of a\n\
           refused block it prints what was read before the place of the refusal. A block of edition 2 is shown as it stands, with its\n\
           halt, sustain, await and abort; it has no text and no state.\n",
    run,
};

/// A block with its statements and, where one is given, a state of it.
pub struct Shown<'a> {
    pub block: &'a Block,
    pub statements: Vec<Statement>,
    pub state: Option<State>,
}

impl<'a> Shown<'a> {
    pub fn of(block: &'a Block, state: Option<State>) -> Shown<'a> {
        Shown { block, statements: walk(&block.bytes, block.bytes.len()).statements, state }
    }

    /// Whether a statement is a pause that is active.
    fn is_active(&self, n: usize) -> bool {
        let active = self.state.map_or(0, |state| state.active);
        self.statements[n].pause.map_or(false, |pause| active >> pause & 1 == 1)
    }

    /// Whether one of these statements is.
    fn runs(&self, mut statements: Range<usize>) -> bool {
        statements.any(|n| self.is_active(n))
    }

    /// The number of the statement that comes after a statement and all below it.
    fn end(&self, n: usize) -> usize {
        let level = self.statements[n].level;
        n + 1 + self.statements[n + 1..].iter().take_while(|s| s.level > level).count()
    }
}

fn run(words: &Words, out: &mut Out) -> Outcome<Status> {
    let [word] = words.exactly(["a block's file"])?;
    let form = words.at_most_one(&["--text", "--svg", "--dot"])?;
    let from = words.value("--from").map(Path::new);
    if word == files::STDIN && from == Some(Path::new(files::STDIN)) {
        return Err(Trouble::call("only one file can be - , standard input"));
    }
    words.at_most_one(&["--text", "--from"])?;
    let path = files::block_path(word);
    let bytes = files::block(&path)?;
    // Of edition 2 the library has no text, and no state is one of it.
    let take = if form == Some("--text") || from.is_some() { block::checked } else { block::either };
    if let (None, Err(why)) = (form, everyday::summary(&bytes)) {
        part_read(&bytes, &why, out)?;
    }
    let block = take(words, path, bytes)?;
    let state = match from.map(|path| keep::begins(Some(path), &block).map(|state| (path, state))).transpose()? {
        Some((path, Err(down))) => return keep::not_taken(path, &down, false, out),
        Some((_, Ok(state))) => State::of(&state),
        None => None,
    };
    let shown = Shown::of(&block, state);
    match form {
        Some("--svg") => out.text(&picture::file(&shown)),
        Some("--text") => out.text(&in_text(&block)),
        Some(_) => dot::told(&shown, out),
        None => told(&shown, out),
    }?;
    Ok(Status::Good)
}

/// The text of a good block, with its signals' names as far as they may stand in a text.
pub fn text_of(block: &Block) -> Vec<u8> {
    let text = text::write(&block.bytes).expect("a good block has a text");
    with_labels(&text, &block.bytes, &block.labels)
}

/// What is to be said where names could not stand in that text.
pub fn names_replaced(block: &Block, text: &[u8]) -> Option<String> {
    let others: Vec<String> = replaced(text, &block.labels).iter().map(|(name, here)| format!("{} for {}", here, name)).collect();
    (!others.is_empty()).then(|| format!("names that cannot stand in this text are replaced in it: {}", crate::sets::listed(&others)))
}

/// The same, and a warning where names could not stand in it.
fn in_text(block: &Block) -> String {
    let text = text_of(block);
    if let Some(said) = names_replaced(block, &text) {
        warn(said, "a name in a text has 1 to 16 letters and digits, a letter first, is no keyword, and is declared once");
    }
    String::from_utf8_lossy(&text).into_owned()
}

/// The tree in lines.
pub fn told(shown: &Shown, out: &mut Out) -> Outcome<()> {
    about(shown.block, out)?;
    if let Some(state) = shown.state {
        out.line(&format!("{:8} {}", "state", in_words(&state)))?;
    }
    out.line(&tree::head(&shown.block.labels))?;
    let mark = |s: &Statement| Some("<- active".to_string()).filter(|_| shown.is_active(s.number));
    for row in tree::rows(&shown.statements, &shown.block.labels, mark) {
        out.line(&row)?;
    }
    Ok(())
}

/// What was read of a refused block before the place.
fn part_read(bytes: &[u8], why: &Refusal, out: &mut Out) -> Outcome<()> {
    let until = if is_conversions(bytes, why) { bytes.len() } else { why.place };
    let walk = walk(bytes, until);
    let header = match walk.header {
        Some(header) if !walk.statements.is_empty() && header.signals() <= 64 => header,
        _ => return Ok(()),
    };
    let summary = foldheron::Summary {
        version: header.version,
        inputs: header.inputs,
        outputs: header.outputs,
        locals: header.locals,
        statements: 0,
        pauses: 0,
    };
    let labels = Labels::numbered(&summary);
    out.line(&format!("{}   (a refused block, up to offset {})", tree::head(&labels), until))?;
    for row in tree::rows(&walk.statements, &labels, |_| None) {
        out.line(&row)?;
    }
    Ok(())
}

/// The lines above the tree: version, counts, and the signals.
fn about(block: &Block, out: &mut Out) -> Outcome<()> {
    let labels = &block.labels;
    out.line(&format!("{}: {}", files::shown(&block.path), block.counts()))?;
    let locals = labels.outputs().end..labels.signals();
    for (title, range) in [("inputs", labels.inputs()), ("outputs", labels.outputs()), ("locals", locals)] {
        if !range.is_empty() {
            out.line(&format!("{:8} {}", title, listed(range, labels)))?;
        }
    }
    Ok(())
}

fn listed(range: Range<usize>, labels: &Labels) -> String {
    range.map(|n| labels.with_number(n)).collect::<Vec<_>>().join(", ")
}
