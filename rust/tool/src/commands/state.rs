//! foldheron state: a state record in words with the block that it names, and with a block where it waits and whether that block takes it.

use super::Command;
use crate::args::{with, Words};
use crate::block::{self, Block};
use crate::files;
use crate::layout::State;
use crate::names;
use crate::output::Out;
use crate::refusal;
use crate::saved::{advice, in_words, named, read, turned_down};
use crate::status::Status;
use crate::tree;
use crate::trouble::{Outcome, Trouble};
use crate::walk::{counted, walk};
use std::path::Path;

pub static COMMAND: Command = Command {
    name: "state",
    does: "prints a saved state",
    call: "[--block FILE [--names FILE | --no-names]] FILE",
    options: &[with("--block", "FILE", "the block that it is a state of: where it waits, and whether the block takes it"), names::OPTION, names::NO_OPTION],
    more: "A state names its block by version and statement count: where one of them differs the block refuses it with 17. Two blocks\n\
           with the same version and as many statements are not told apart, so keep the block's file beside the state. A state\n\
           of 22 bytes is from before version 2.0.0: it names no block, and is refused with 9.\n",
    run,
};

fn run(words: &Words, out: &mut Out) -> Outcome<Status> {
    let [word] = words.exactly(["a state's file"])?;
    let path = Path::new(word);
    let bytes = files::state(path)?;
    let block = words.value("--block").map(|file| block::load(words, file)).transpose()?;
    let state = read(&bytes).map_err(|why| {
        let said = format!("{}: refused with {}: {}", files::shown(path), refusal::title(9), why);
        Trouble::new(Status::of(9), said).advise(advice(&bytes))
    })?;
    out.line(&format!("{}: {}", files::shown(path), in_words(&state)))?;
    out.line(&format!("it was written for {}", named(state.version, state.statements)))?;
    match block {
        Some(block) => with_block(&bytes, &state, &block, out),
        None => Ok(Status::Good),
    }
}

fn with_block(bytes: &[u8], state: &State, block: &Block, out: &mut Out) -> Outcome<Status> {
    if let Some(down) = turned_down(block, bytes) {
        let said = format!("{}: it is refused with {}: {}", files::shown(&block.path), refusal::title(down.number), down.why);
        return Err(Trouble::new(Status::of(down.number), said).advise(down.advice));
    }
    out.line(&format!("{} takes it: version {}, {}", files::shown(&block.path), block.summary.version, counted(block.summary.statements.into(), "statement")))?;
    let active = state.pauses();
    if active.is_empty() {
        return Ok(Status::Good);
    }
    out.line(&tree::head(&block.labels))?;
    let statements = walk(&block.bytes, block.bytes.len()).statements;
    let mark = |s: &crate::walk::Statement| s.pause.filter(|n| active.contains(n)).map(|_| "<- waits here".to_string());
    for row in tree::rows(&statements, &block.labels, mark) {
        out.line(&row)?;
    }
    Ok(Status::Good)
}
