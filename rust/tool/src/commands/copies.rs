//! foldheron copies: writes the block with each loop's body twice, one after the other, and says what grew.

use super::Command;
use crate::args::{flag, with, Words};
use crate::block::{self, Block};
use crate::carried::{self, from_to, growth, named};
use crate::files;
use crate::grown::Grown;
use crate::hash::sha256;
use crate::json::Object;
use crate::layout::BLOCK_MOST;
use crate::names;
use crate::output::Out;
use crate::refusal;
use crate::status::Status;
use crate::trouble::{Outcome, Trouble};
use crate::walk::{counted, grouped};
use foldheron::{double_loops, name_of, Refusal};
use std::path::PathBuf;

pub static COMMAND: Command = Command {
    name: "copies",
    does: "writes a block with each loop's body twice, for C generators",
    call: "FILE --to OUT [--over] [--json] [--names FILE | --no-names]",
    options: &[
        with("--to", "OUT", "the file to write, or -o OUT: where it is not there or empty, or has these very bytes"),
        flag("--over", "write over a good block that is there, and over a names file beside it that has other names"),
        flag("--json", "an object"),
        names::OPTION,
        names::NO_OPTION,
    ],
    more: "Some C generators cannot start a scope twice in one instant. Here loop p becomes loop (p; p), from the inside out, so a body inside\n\
           n loops stands there 2 to the power n times; the locals are numbered anew, and version, inputs and outputs are kept. From fresh the two\n\
           blocks give the same outputs, codes and 13 under every run of inputs: that is proved. A state of the one is none of the other's.\n\
           \n\
           The names of inputs and outputs are carried along into the names file beside OUT; the locals, which are doubled, have none there.\n\
           Where the doubled block would pass a limit it is refused with 4, and nothing is written.\n",
    run,
};

fn run(words: &Words, out: &mut Out) -> Outcome<Status> {
    let [word] = words.exactly(["the block's file"])?;
    let to = carried::place(words, "the doubled block", &files::block_path(word))?;
    let block = match block::load_or_tell(words, word, out)? {
        Some(block) => block,
        None => return Ok(Status::BlockRefused),
    };
    let mut into = [0; BLOCK_MOST];
    let doubled = match double_loops(&block.bytes, &mut into) {
        Ok(bytes) => with_names(&block, to, bytes.to_vec())?,
        Err(why) => return turned_down(&block, why, words, out),
    };
    let is_carried = carried::put(&doubled, &block, words.has("--over"))?;
    let told = tell(&block, &doubled, is_carried, words, out).and_then(|_| out.flush());
    told.map_err(|trouble| trouble.advise("what was asked is done"))?;
    Ok(Status::Good)
}

/// The doubled block with the names of the signals that keep their numbers: those that are declared, and all of them where nothing was doubled.
fn with_names(block: &Block, path: PathBuf, bytes: Vec<u8>) -> Outcome<Block> {
    let mut doubled = block::unnamed(path, bytes)?;
    if doubled.bytes == block.bytes {
        doubled.labels = block.labels.clone();
        return Ok(doubled);
    }
    carried::name(&mut doubled, block, block.labels.inputs().chain(block.labels.outputs()))?;
    Ok(doubled)
}

fn tell(block: &Block, doubled: &Block, is_carried: bool, words: &Words, out: &mut Out) -> Outcome<()> {
    let loops = Grown::doubled(&block.bytes).loops;
    if words.has("--json") {
        let object = Object::new().number("refusal", 0u64).text("file", &doubled.path.to_string_lossy()).number("version", doubled.summary.version).number("loops", loops);
        let object = growth(block, doubled).iter().fold(object, |object, (what, old, new)| object.number(what, *new).number(&format!("{}_before", what), *old));
        return out.line(&object.text("sha256", &sha256(&doubled.bytes)).done());
    }
    let shown = files::shown(&doubled.path);
    if loops == 0 {
        out.line(&format!("{}: the block has no loop, so these are its own bytes, {}", shown, grouped(doubled.bytes.len() as u64)))?;
    } else {
        let grew: Vec<String> = growth(block, doubled).iter().map(|(what, old, new)| from_to(what, *old, *new)).collect();
        out.line(&format!("{}: {} doubled: {}", shown, counted(loops, "loop"), grew.join(", ")))?;
        out.line("from fresh it gives the same outputs, codes and 13 under every run of inputs")?;
        out.line(&format!("a state of {} is none of its: it refuses it with 17, so start it afresh", files::shown(&block.path)))?;
    }
    carried::told(doubled, block, is_carried, &left_out(block, doubled)).map_or(Ok(()), |line| out.line(&line))
}

/// The locals' names that are not carried along.
fn left_out(block: &Block, doubled: &Block) -> String {
    match named(&block.labels) - named(&doubled.labels) {
        0 => String::new(),
        more => format!("; without those of locals, which are numbered anew: {}", more),
    }
}

/// Refused with 4 for the doubled block's size: which limits it would pass. Other numbers are the block's own, and were told before.
fn turned_down(block: &Block, why: Refusal, words: &Words, out: &mut Out) -> Outcome<Status> {
    let status = Status::of(why.number);
    let passed = Grown::doubled(&block.bytes).passed().join("; ");
    let wrong = if passed.is_empty() { refusal::meaning(why.number) } else { format!("doubled, it would have {}", passed) };
    if words.has("--json") {
        let object = Object::new().number("refusal", why.number).text("name", name_of(why.number).unwrap_or("")).number("place", why.place as u64);
        out.line(&object.text("file", &block.path.to_string_lossy()).text("wrong", &wrong).done())?;
        return Ok(status);
    }
    let said = format!("{}: the doubled block is refused with {}: {}", files::shown(&block.path), refusal::title(why.number), wrong);
    Err(Trouble::new(status, said).advise("the block itself is good, and each loop doubles all that is in it: ask the maker for fewer loops inside each other, or for two blocks"))
}
