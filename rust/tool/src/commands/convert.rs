//! foldheron convert: writes a block of edition 2 in edition 1, and says what grew.

use super::Command;
use crate::args::{flag, with, Words};
use crate::block::{self, Block, Report};
use crate::carried::{self, from_to, growth};
use crate::commands::check::tell_refused;
use crate::everyday;
use crate::files;
use crate::hash::sha256;
use crate::json::Object;
use crate::names;
use crate::output::Out;
use crate::status::Status;
use crate::trouble::Outcome;

pub static COMMAND: Command = Command {
    name: "convert",
    does: "writes a block of edition 2 in edition 1, which runs",
    call: "FILE --to OUT [--over] [--json] [--names FILE | --no-names]",
    options: &[
        with("--to", "OUT", "the file to write, or -o OUT: where it is not there or empty, or has these very bytes"),
        flag("--over", "write over a good block of edition 1 that is there, and over a names file beside it that has other names"),
        flag("--json", "an object"),
        names::OPTION,
        names::NO_OPTION,
    ],
    more: "Edition 2 has four statements more: halt, sustain s, await s, and abort p when s. Nothing but this command, check, show and names takes it;\n\
           instants take edition 1. Each of the four is written as the form that stands for it, with every exit that leaves the body of an abort one\n\
           deeper; version, inputs, outputs and locals are kept. From fresh the block that is written gives the outputs, codes and 13 that the four\n\
           statements mean, under every run of inputs: that is proved.\n\
           \n\
           The signals keep their numbers, and their names are carried along into the names file beside OUT. A block that is refused with 1 to 8 is told\n\
           as check tells it; with 4 at offset 0 where the conversion would pass a limit: then it says which, and by how much. Nothing is written then.\n",
    run,
};

fn run(words: &Words, out: &mut Out) -> Outcome<Status> {
    let [word] = words.exactly(["the block's file"])?;
    let path = files::block_path(word);
    let to = carried::place(words, "the conversion", &path)?;
    let bytes = files::block(&path)?;
    let made = match everyday::read(&bytes) {
        Ok(good) => good.bytes,
        Err(why) => return tell_refused(&Report::of(&path, &bytes, why), words, out),
    };
    let block = block::either(words, path, bytes)?;
    let mut converted = block::unnamed(to, made)?;
    carried::name(&mut converted, &block, 0..block.labels.signals())?;
    let is_carried = carried::put(&converted, &block, words.has("--over"))?;
    let told = tell(&block, &converted, is_carried, words, out).and_then(|_| out.flush());
    told.map_err(|trouble| trouble.advise("what was asked is done"))?;
    Ok(Status::Good)
}

fn tell(block: &Block, converted: &Block, is_carried: bool, words: &Words, out: &mut Out) -> Outcome<()> {
    let grew = growth(block, converted);
    let grew = grew.iter().filter(|(what, _, _)| *what != "locals");
    if words.has("--json") {
        let object = Object::new().number("refusal", 0u64).text("file", &converted.path.to_string_lossy()).number("version", converted.summary.version);
        let object = grew.fold(object, |object, (what, old, new)| object.number(what, *new).number(&format!("{}_before", what), *old));
        return out.line(&object.text("sha256", &sha256(&converted.bytes)).done());
    }
    let grew: Vec<String> = grew.map(|(what, old, new)| from_to(what, *old, *new)).collect();
    out.line(&format!("{}: written in edition 1: {}", files::shown(&converted.path), grew.join(", ")))?;
    out.line(&format!("from fresh it gives the outputs, codes and 13 that {} means, under every run of inputs", files::shown(&block.path)))?;
    carried::told(converted, block, is_carried, "").map_or(Ok(()), |line| out.line(&line))
}
