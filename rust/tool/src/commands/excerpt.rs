//! foldheron excerpt: one statement and all below it.

use super::Command;
use crate::args::{flag, Words};
use crate::block::{self, Block};
use crate::json::Object;
use crate::names;
use crate::output::Out;
use crate::refusal;
use crate::status::Status;
use crate::tree;
use crate::trouble::{Outcome, Trouble};
use crate::walk::{counted, walk};
use foldheron::{name_of, Refusal};

pub static COMMAND: Command = Command {
    name: "excerpt",
    does: "prints one statement of a block and all below it",
    call: "[--json] [--names FILE | --no-names] FILE N",
    options: &[flag("--json", "the offset, the count and the bytes in base 16, as an object"), names::OPTION, names::NO_OPTION],
    more: "N is the statement's number, from 0, as foldheron show has it. Statement 0 is the whole block without its header.\n",
    run,
};

fn run(words: &Words, out: &mut Out) -> Outcome<Status> {
    let [file, number] = words.exactly(["a block's file", "a statement's number"])?;
    let n: usize = number.to_str().and_then(|text| text.parse().ok()).ok_or_else(|| Trouble::call(format!("'{}' is no statement's number", number.to_string_lossy())))?;
    let block = match block::load_or_tell(words, file, out)? {
        Some(block) => block,
        None => return Ok(Status::BlockRefused),
    };
    let part = match foldheron::excerpt(&block.bytes, n) {
        Ok(part) => part,
        Err(why) => return turned_down(&block, n, why, words, out),
    };
    let offset = part.as_ptr() as usize - block.bytes.as_ptr() as usize;
    if words.has("--json") {
        let bytes: String = part.iter().map(|byte| format!("{:02x}", byte)).collect();
        let object = Object::new().number("refusal", 0u64).number("statement", n as u64).number("offset", offset as u64);
        out.line(&object.number("count", part.len() as u64).text("bytes", &bytes).done())?;
        return Ok(Status::Good);
    }
    in_words(&block, n, offset..offset + part.len(), out)
}

fn in_words(block: &Block, n: usize, part: std::ops::Range<usize>, out: &mut Out) -> Outcome<Status> {
    let all = walk(&block.bytes, block.bytes.len()).statements;
    let below: Vec<_> = all.into_iter().filter(|s| part.contains(&s.offset)).collect();
    let statements = counted(below.len() as u64, "statement");
    out.line(&format!("statement {} and all below it: {}, {} from offset {}", n, statements, counted(part.len() as u64, "byte"), part.start))?;
    out.line(&tree::head(&block.labels))?;
    for row in tree::rows(&below, &block.labels, |_| None) {
        out.line(&row)?;
    }
    Ok(Status::Good)
}

fn turned_down(block: &Block, n: usize, why: Refusal, words: &Words, out: &mut Out) -> Outcome<Status> {
    let status = Status::of(why.number);
    if words.has("--json") {
        let object = Object::new().number("refusal", why.number).text("name", name_of(why.number).unwrap_or("")).number("statement", n as u64);
        out.line(&object.done())?;
        return Ok(status);
    }
    let last = block.summary.statements - 1;
    let said = format!("refused with {}: there is no statement {}", refusal::title(why.number), n);
    Err(Trouble::new(status, said).advise(format!("the block has {}, numbered 0 to {}", counted(block.summary.statements.into(), "statement"), last)))
}
