//! A text that is refused, as an editor wants it: file, line and column, the number, what is wrong, the line with a mark under it. Of a 15 the library names the place; of the other numbers it names a
//! place in the block that the text stands for, and the statement there is found here.

use super::fault::Fault;
use super::place::{self, marked};
use super::source::Source;
use super::{token, TEXT};
use crate::files;
use crate::json::Object;
use crate::output::put_error;
use crate::refusal;
use crate::status::Status;
use foldheron::{check, name_of, Refusal};
use std::path::Path;

/// All that is said of a refused text.
struct Told {
    at: usize,
    wrong: String,
    /// What is found and what may stand there, of a 15.
    fault: Option<Fault>,
    advice: Option<&'static str>,
}

impl Told {
    fn of(text: &[u8], why: &Refusal) -> Told {
        if why.number == TEXT {
            let fault = Fault::of(text, why.place);
            // Where the text ends too early that is behind its last token, and not on the empty lines below it.
            let end = token::tokens(text).last().map_or(0, |last| last.place + last.bytes.len());
            return Told { at: why.place.min(end), wrong: fault.line(), fault: Some(fault), advice: None };
        }
        let source = Source::of(text);
        let advice = advice(why.number);
        if let Some((at, wrong)) = source.too_large {
            return Told { at, wrong, fault: None, advice };
        }
        let block = source.bytes();
        match (check(&block), source.place_at(why.place)) {
            (Err(same), Some(at)) if same == *why => Told { at, wrong: wrong(text, at, &block, why), fault: None, advice },
            _ => Told { at: 0, wrong: "it is larger than a block may be".to_string(), fault: None, advice },
        }
    }
}

/// What is wrong with the statement at a place of the text; of an input that is emitted its name.
fn wrong(text: &[u8], at: usize, block: &[u8], why: &Refusal) -> String {
    let emitted = token::next(text, at).and_then(|emit| token::next(text, at + emit.bytes.len()));
    match emitted {
        Some(name) if why.number == 5 => format!("'{}' is an input, and an input cannot be emitted", name.shown()),
        _ => refusal::wrong(block, why),
    }
}

/// What the maker does about it.
fn advice(number: u16) -> Option<&'static str> {
    match number {
        4 => Some("make it smaller, or two blocks of it"),
        5 => Some("declare it as an output, or emit a signal of your own"),
        8 => Some("put a pause on every way through the loop's body, or an exit that leaves the loop"),
        _ => None,
    }
}

/// Tells on standard error why a text is refused, or as an object; the status to end with.
pub fn tell(path: &Path, text: &[u8], why: &Refusal, is_json: bool) -> (Status, Option<String>) {
    let told = Told::of(text, why);
    let status = Status::of(why.number);
    if is_json {
        return (status, Some(object(path, text, why, &told)));
    }
    let place = place::of(text, told.at);
    let mut lines = vec![format!("{}:{}:{}: {} {}: {}", files::shown(path), place.line, place.column, why.number, name_of(why.number).unwrap_or(""), told.wrong)];
    lines.extend(marked(text, told.at).map(|line| format!("  {}", line)));
    lines.extend(told.fault.and_then(|fault| fault.why).map(|why| format!("  {}", why)));
    lines.extend(told.advice.map(|advice| format!("  {}", advice)));
    put_error(&(lines.join("\n") + "\n"));
    (status, None)
}

fn object(path: &Path, text: &[u8], why: &Refusal, told: &Told) -> String {
    let place = place::of(text, told.at);
    let object = Object::new().number("refusal", why.number).text("name", name_of(why.number).unwrap_or("")).number("place", why.place as u64);
    let object = object.text("file", &path.to_string_lossy()).number("line", place.line as u64).number("column", place.column as u64).text("wrong", &told.wrong);
    let object = match &told.fault {
        Some(fault) => object.text("found", &fault.found).texts("may", &fault.may),
        None => object,
    };
    let because = told.fault.as_ref().and_then(|fault| fault.why.as_deref());
    match because.or(told.advice) {
        Some(more) => object.text("advice", more).done(),
        None => object.done(),
    }
}
