//! foldheron check: good with version and counts, or the refusal in words.

use super::Command;
use crate::args::{flag, Words};
use crate::block::{counts, Report};
use crate::everyday::{self, Everyday};
use crate::files;
use crate::hash::sha256;
use crate::json::Object;
use crate::layout::{edition, EVERYDAY};
use crate::output::{say, Out};
use crate::refusal::title;
use crate::status::Status;
use crate::trouble::{Outcome, Trouble};
use crate::walk::counted;
use foldheron::{check, name_of, Refusal, Summary};
use std::path::Path;

pub static COMMAND: Command = Command {
    name: "check",
    does: "says whether blocks are good, and of a refused one where and why",
    call: "[--json] FILE..",
    options: &[flag("--json", "an object for each file, on a line of its own")],
    more: "Of a good block it prints the version and the counts. Of a refused one: the number and its name, the offset, the\n\
           record that stands there, what is wrong with it, the likely cause, and what to do.\n\
           \n\
           A block of edition 2 is told as convert takes it: good where that would write its conversion, with the conversion's counts, and\n\
           else refused as convert refuses it. It ends with 1 in either case, for nothing runs edition 2: convert it first.\n",
    run,
};

fn run(words: &Words, out: &mut Out) -> Outcome<Status> {
    if words.free.is_empty() {
        return Err(Trouble::call("a block's file is missing"));
    }
    let mut status = Status::Good;
    for word in &words.free {
        let path = files::block_path(word);
        let told = if words.has("--json") { as_json(&path, out) } else { in_words(&path, out) };
        status = status.and(told?);
    }
    Ok(status)
}

fn in_words(path: &Path, out: &mut Out) -> Outcome<Status> {
    let name = files::shown(path);
    let bytes = match files::block(path) {
        Ok(bytes) => bytes,
        Err(trouble) => {
            out.flush()?;
            say(&trouble.lines);
            return Ok(trouble.status);
        }
    };
    match check(&bytes) {
        Ok(summary) => {
            out.line(&format!("{}: good: {}", name, counts(&summary, bytes.len())))?;
            Ok(Status::Good)
        }
        Err(why) => {
            let lines = match converted(&bytes, why) {
                Ok(good) => everyday_in_words(&name, &good),
                Err(why) => Report::of(path, &bytes, why).lines(),
            };
            out.line(&lines.join("\n  "))?;
            Ok(Status::BlockRefused)
        }
    }
}

/// Of a refused block its conversion, where it is a good one of edition 2; else why it is refused, of edition 2 by the converter.
fn converted(bytes: &[u8], why: Refusal) -> Result<Everyday, Refusal> {
    match edition(bytes) {
        EVERYDAY => everyday::read(bytes),
        _ => Err(why),
    }
}

fn everyday_in_words(name: &str, good: &Everyday) -> Vec<String> {
    let sizes = [(u64::from(good.converted.statements), "statement"), (good.converted.pauses.into(), "pause"), (good.bytes.len() as u64, "byte")];
    let sizes: Vec<String> = sizes.iter().map(|(n, noun)| counted(*n, noun)).collect();
    vec![
        format!("{}: edition 2: good, its conversion has {}", name, sizes.join(", ")),
        format!("but instants take edition 1, and refuse it with {}: foldheron convert writes it in edition 1", title(EDITION)),
    ]
}

/// The number with which all but the converter refuse edition 2.
const EDITION: u16 = 3;

fn as_json(path: &Path, out: &mut Out) -> Outcome<Status> {
    let object = Object::new().text("file", &path.to_string_lossy());
    let (object, status) = match files::block(path) {
        Err(trouble) => (object.flag("good", false).text("error", &trouble.lines[0]), trouble.status),
        Ok(bytes) => match check(&bytes) {
            Ok(summary) => (good(object, &summary, &bytes), Status::Good),
            Err(why) => (not_good(path, &bytes, why), Status::BlockRefused),
        },
    };
    out.line(&object.done())?;
    Ok(status)
}

fn not_good(path: &Path, bytes: &[u8], why: Refusal) -> Object {
    let told = |why| refused(&Report::of(path, bytes, why));
    match converted(bytes, why) {
        Err(why) => told(why),
        Ok(good) => told(why)
            .number("edition", EVERYDAY)
            .number("converted_statements", good.converted.statements)
            .number("converted_pauses", good.converted.pauses)
            .number("converted_bytes", good.bytes.len() as u64),
    }
}

fn good(object: Object, summary: &Summary, bytes: &[u8]) -> Object {
    object
        .flag("good", true)
        .number("version", summary.version)
        .number("inputs", summary.inputs)
        .number("outputs", summary.outputs)
        .number("locals", summary.locals)
        .number("statements", summary.statements)
        .number("pauses", summary.pauses)
        .number("bytes", bytes.len() as u64)
        .text("sha256", &sha256(bytes))
}

/// A refused block, here and wherever objects are asked for.
pub fn refused(report: &Report) -> Object {
    let why = report.refusal;
    let object = Object::new().text("file", &report.path.to_string_lossy()).flag("good", false).number("refusal", why.number).text("name", name_of(why.number).unwrap_or(""));
    let object = object.number("place", why.place as u64).text("record", &report.record).text("wrong", &report.wrong);
    let object = match &report.cause {
        Some(cause) => object.text("cause", &cause.what),
        None => object,
    };
    let object = object.text("advice", &report.advice());
    match report.is_everyday {
        true => object.number("edition", EVERYDAY),
        false => object,
    }
}

/// Ends with a refused block: an object where objects are asked for, else words.
pub fn tell_refused(report: &Report, words: &Words, out: &mut Out) -> Outcome<Status> {
    if !words.has("--json") {
        return Err(Trouble { status: Status::BlockRefused, lines: report.lines() });
    }
    out.line(&refused(report).done())?;
    Ok(Status::BlockRefused)
}
