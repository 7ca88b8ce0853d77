//! foldheron fmt: lays texts out as the library writes them, with the maker's names.

use super::Command;
use crate::args::{flag, Words};
use crate::files;
use crate::output::Out;
use crate::replace::replace;
use crate::status::Status;
use crate::text::{self, refused, written};
use crate::trouble::{Outcome, Trouble};
use foldheron::Refusal;
use std::path::Path;

pub static COMMAND: Command = Command {
    name: "fmt",
    does: "lays texts out in one way, with the names that they have",
    call: "[--check] FILE.strl..",
    options: &[flag("--check", "write nothing, and end with 9 where a text is laid out otherwise")],
    more: "A line a statement, two blanks for each construct that is open, brackets only where the grammar needs them: as the library writes a\n\
           block's text. The names stay, and so does the block that the text stands for. A file is written only where it changes; - is standard\n\
           input, laid out on standard output. A text that is refused is told as build tells it, and left as it is.\n",
    run,
};

fn run(words: &Words, out: &mut Out) -> Outcome<Status> {
    if words.free.is_empty() {
        return Err(Trouble::call("a text's file is missing"));
    }
    let mut status = Status::Good;
    for word in &words.free {
        status = status.and(one(&files::text_path(word), words.has("--check"), out)?);
    }
    Ok(status)
}

fn one(path: &Path, is_checked: bool, out: &mut Out) -> Outcome<Status> {
    let text = files::text(path)?;
    let laid = match laid_out(&text) {
        Ok(laid) => laid,
        Err(why) => {
            out.flush()?;
            return Ok(refused::tell(path, &text, &why, false).0);
        }
    };
    match (laid == text, path == Path::new(files::STDIN)) {
        (true, _) if is_checked => Ok(Status::Good),
        (false, _) if is_checked => {
            let word = files::printable(&path.to_string_lossy());
            out.line(&format!("{}: laid out otherwise: foldheron fmt {} lays it out", files::shown(path), word)).map(|_| Status::NotExpected)
        }
        (_, true) => out.text(&String::from_utf8_lossy(&laid)).map(|_| Status::Good),
        (true, _) => Ok(Status::Good),
        _ => {
            replace(path, &laid)?;
            out.line(&format!("{}: laid out", files::shown(path))).map(|_| Status::Good)
        }
    }
}

/// The text as the library writes it, with its own names.
fn laid_out(text: &[u8]) -> Result<Vec<u8>, Refusal> {
    let block = text::read(text)?;
    let laid = written::renamed(&text::write(&block)?, &written::names_of(text));
    assert!(text::read(&laid) == Ok(block), "the text that is laid out is another");
    Ok(laid)
}
