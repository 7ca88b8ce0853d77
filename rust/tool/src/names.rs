//! The names file beside a block: text, a line each for the version, the statement count and the hash of the block that it is for, and for each
//! signal that has a name. After a silent update of the block it would label the wrong pump, so it is refused where one of the three differs.

use crate::args::{flag, with, Opt, Words};
use crate::files;
use crate::hash::sha256;
use crate::labels::{Labels, Sort, Text, SORTS};
use crate::output::warn;
use crate::status::Status;
use crate::trouble::{reason, Outcome, Trouble};
use foldheron::Summary;
use std::io::ErrorKind;
use std::path::{Path, PathBuf};
use std::sync::Once;

/// The first line, with the edition of the file's form.
pub const FIRST: &str = "foldheron names 1";
/// What begins the line on a statement's place in the text.
const LINE: &str = "line";
/// What begins the line on the text, with its hash and its path from the folder of the names file.
const TEXT: &str = "text ";
/// What a names file that was made from a text has in its second line, before the text's name.
pub const FROM: &str = "# from ";
/// A names file is read up to here; 64 names and the lines of 512 statements take less.
pub const MOST: usize = 1 << 14;

/// The names file of a block: of `pump.bin` it is `pump.names`.
pub fn beside(block: &Path) -> PathBuf {
    block.with_extension("names")
}

/// The lines that say which block the names are for.
fn keys(block: &[u8], summary: &Summary) -> [(&'static str, String); 3] {
    [("version", summary.version.to_string()), ("statements", summary.statements.to_string()), ("sha256", sha256(block))]
}

/// A names file's text.
pub fn written(block: &[u8], summary: &Summary, labels: &Labels) -> String {
    let mut text = format!("{}\n", FIRST);
    for (key, value) in keys(block, summary) {
        text.push_str(&format!("{} {}\n", key, value));
    }
    if let Some(of) = &labels.text {
        text.push_str(&format!("{}{} {}\n", TEXT, of.sha256, of.path));
    }
    for signal in 0..labels.signals() {
        if let (Some(sort), Some(name)) = (labels.sort(signal), labels.name(signal)) {
            text.push_str(&format!("{} {} {}\n", sort.word(), signal, name));
        }
    }
    for (statement, line) in (0..summary.statements.into()).filter_map(|n| labels.line(n).map(|line| (n, line))) {
        text.push_str(&format!("{} {} {}\n", LINE, statement, line));
    }
    text
}

/// Reads a names file's text for a block; answers why it cannot be used.
pub fn read(text: &str, block: &[u8], summary: &Summary) -> Result<Labels, String> {
    let mut lines = text.lines().enumerate().map(|(n, line)| (n + 1, line.trim())).filter(|(_, line)| !line.is_empty() && !line.starts_with('#'));
    if text.starts_with('\u{FEFF}') {
        return Err("it begins with a byte order mark (BOM): save it as UTF-8 without one".to_string());
    }
    if lines.next().map(|(_, line)| line) != Some(FIRST) {
        return Err(format!("its first line is not '{}'", FIRST));
    }
    let mut labels = Labels::numbered(summary);
    let mut wanted = keys(block, summary).to_vec();
    for (n, line) in lines {
        if let Some(rest) = line.strip_prefix(TEXT) {
            text_of(&mut labels, rest).map_err(|why| format!("line {}: {}", n, why))?;
            continue;
        }
        let words: Vec<&str> = line.split_whitespace().collect();
        match words.as_slice() {
            [LINE, statement, line] => line_of(&mut labels, statement, line).map_err(|why| format!("line {}: {}", n, why))?,
            [key, value] => settle(&mut wanted, key, value).map_err(|why| format!("line {}: {}", n, why))?,
            [sort, number, name] => name_signal(&mut labels, sort, number, name).map_err(|why| format!("line {}: {}", n, why))?,
            _ => return Err(format!("line {} has not two or three words", n)),
        }
    }
    match wanted.first() {
        Some((key, _)) => Err(format!("it has no line '{} ..', so nothing says that it is for this block", key)),
        None => Ok(labels),
    }
}

/// Takes a key off the list of those that are wanted, where its value is the block's.
fn settle(wanted: &mut Vec<(&'static str, String)>, key: &str, value: &str) -> Result<(), String> {
    let at = wanted.iter().position(|(name, _)| *name == key).ok_or_else(|| format!("'{}' is not known here, or stands twice", key))?;
    let (_, ours) = wanted.remove(at);
    if ours == value {
        return Ok(());
    }
    Err(match key {
        "statements" => format!("it is for another block: it has {} statements, and this block has {}", value, ours),
        _ => format!("it is for another block: its {} is {}, and this block's is {}", key, value, ours),
    })
}

fn text_of(labels: &mut Labels, rest: &str) -> Result<(), String> {
    match rest.split_once(' ') {
        Some((sha256, path)) if labels.text.is_none() => labels.text = Some(Text { sha256: sha256.to_string(), path: path.to_string() }),
        Some(_) => return Err("a text is named twice".to_string()),
        None => return Err(format!("'{}' is no SHA-256 and a text's file", rest)),
    }
    Ok(())
}

fn line_of(labels: &mut Labels, statement: &str, line: &str) -> Result<(), String> {
    match (statement.parse(), line.parse()) {
        (Ok(statement), Ok(line)) => labels.put_on_line(statement, line),
        _ => Err(format!("'{}' and '{}' are no statement and its line", statement, line)),
    }
}

fn name_signal(labels: &mut Labels, sort: &str, number: &str, name: &str) -> Result<(), String> {
    let sort: Sort = SORTS.iter().find(|row| row.1 == sort).map(|row| row.0).ok_or_else(|| format!("'{}' is no input, output or local", sort))?;
    let signal: usize = number.parse().map_err(|_| format!("'{}' is no signal's number", number))?;
    if labels.sort(signal) != Some(sort) {
        return Err(format!("signal {} is no {} of this block", signal, sort.word()));
    }
    if labels.name(signal).is_some() {
        return Err(format!("signal {} is named twice", signal));
    }
    labels.give(signal, name)
}

const NAMES: &str = "--names";
const NO_NAMES: &str = "--no-names";
/// The options by which a command is told of names.
pub const OPTION: Opt = with(NAMES, "FILE", "take the signals' names from FILE, not from the file beside the block");
pub const NO_OPTION: Opt = flag(NO_NAMES, "call the signals by their numbers: i0, o1, s2");

/// Whether a names file is asked for.
pub fn is_named(words: &Words) -> bool {
    words.has(NAMES)
}

/// What the signals of a good block are called in this call: by the file of --names or the one beside the block. Of one beside it that cannot be
/// used a warning tells, and the signals go by their numbers; one that is named and cannot be used ends the command.
pub fn labels(words: &Words, path: &Path, block: &[u8], summary: &Summary) -> Outcome<Labels> {
    let numbered = Labels::numbered(summary);
    let asked = words.at_most_one(&[NAMES, NO_NAMES])?;
    let named = words.value(NAMES).map(PathBuf::from);
    if asked == Some(NO_NAMES) || (named.is_none() && path == Path::new(files::STDIN)) {
        return Ok(numbered);
    }
    let file = named.clone().unwrap_or_else(|| beside(path));
    let unused = |why: String| {
        if named.is_some() {
            let said = format!("{} cannot be used: {}", files::shown(&file), why);
            return Err(Trouble::new(Status::Refused, said).advise("name the names file of this very block, or say --no-names"));
        }
        warn(format!("{} is not used: {}", files::shown(&file), why), "signals go by their numbers: i0, o1, ..");
        Ok(numbered.clone())
    };
    match files::first(&file, MOST + 1) {
        Err(why) if named.is_some() => Err(files::unread(&file, &why)),
        Err(why) if why.kind() == ErrorKind::NotFound => Ok(numbered),
        Err(why) => unused(reason(&why)),
        Ok(bytes) if bytes.len() > MOST => unused(format!("it has over {} bytes", MOST)),
        Ok(bytes) => match String::from_utf8(bytes) {
            Err(_) => unused("it is no text".to_string()),
            Ok(text) => read(&text, block, summary).map(|labels| as_the_text_is(labels, &file)).or_else(unused),
        },
    }
}

/// The lines of a text are told only where it is as it was when they were written: after a change they would name other statements.
fn as_the_text_is(labels: Labels, file: &Path) -> Labels {
    let (text, was) = match &labels.text {
        Some(of) => (file.with_file_name(&of.path), of.sha256.clone()),
        None => return labels,
    };
    let why = match files::size(&text).map(|_| files::text(&text)) {
        Some(Ok(bytes)) if sha256(&bytes) == was => return labels,
        Some(Ok(_)) => "has changed since the block was built from it",
        _ => "cannot be read, and the block was built from it",
    };
    labels.without_lines(format!("{} {}: its lines are left out", files::shown(&text), why))
}

/// Tells once why the lines of the text are left out, where a command would have them.
pub fn tell_stale(labels: &Labels) {
    static TOLD: Once = Once::new();
    if let Some(why) = &labels.stale {
        TOLD.call_once(|| warn(why.clone(), "they are told again where the text is as it was, or after foldheron build"));
    }
}

/// Whether a names file was made from a text.
pub fn is_made(text: &str) -> bool {
    text.lines().nth(1).map_or(false, |line| line.starts_with(FROM))
}

/// The names of another block's file for this one, where each is what its signal has here, but for '_'.
pub fn carried(text: &str, summary: &Summary, here: &Labels) -> Option<Labels> {
    let mut labels = Labels::numbered(summary);
    let plain = |name: &str| name.replace('_', "");
    for line in text.lines().skip(1) {
        let words: Vec<&str> = line.split_whitespace().collect();
        if let [sort, number, name] = words.as_slice() {
            if SORTS.iter().any(|row| row.1 == *sort) {
                let signal = number.parse().ok()?;
                here.name(signal).filter(|here| plain(here) == plain(name))?;
                name_signal(&mut labels, sort, number, name).ok()?;
            }
        }
    }
    Some(labels).filter(|labels| (0..labels.signals()).any(|n| labels.name(n).is_some()))
}

/// Whether the names file beside a block is this block's.
pub fn fits(path: &Path, block: &[u8], summary: &Summary) -> bool {
    let text = files::first(&beside(path), MOST).ok().and_then(|bytes| String::from_utf8(bytes).ok());
    text.map_or(false, |text| read(&text, block, summary).is_ok())
}

#[cfg(test)]
mod tests {
    use super::*;

    const SUMMARY: Summary = Summary { version: 7, inputs: 1, outputs: 1, locals: 0, statements: 4, pauses: 1 };

    fn text(hash: &str, rest: &str) -> String {
        format!("foldheron names 1\n# made by hand\nversion 7\nstatements 4\nsha256 {}\n\n{}", hash, rest)
    }

    #[test]
    fn read_and_written() {
        let labels = read(&text(&sha256(b"x"), "input 0 I\noutput 1 O\n"), b"x", &SUMMARY).unwrap();
        assert_eq!((labels.name(0), labels.name(1)), (Some("I"), Some("O")));
        assert_eq!(read(&written(b"x", &SUMMARY, &labels), b"x", &SUMMARY), Ok(labels));
        let labels = read(&text(&sha256(b"x"), "line 0 3\nline 3 4\ninput 0 line\n"), b"x", &SUMMARY).unwrap();
        assert_eq!([0, 1, 3].map(|n| labels.line(n)), [Some(3), None, Some(4)]);
        assert_eq!(read(&written(b"x", &SUMMARY, &labels), b"x", &SUMMARY), Ok(labels));
    }

    #[test]
    fn refused() {
        let why = |hash: &str, rest: &str| read(&text(hash, rest), b"x", &SUMMARY).unwrap_err();
        assert!(why(&sha256(b"y"), "").contains("another block: its sha256"));
        let good = sha256(b"x");
        for rest in ["input 1 I", "output 1 O O", "local 2 S", "input 0 I\ninput 0 J", "input 0 A\noutput 1 A", "version 7", "input x I", "line 4 1", "line 0 1\nline 0 1", "line 0 x"] {
            assert!(why(&good, rest).starts_with("line "), "{}", rest);
        }
        assert!(read("foldheron names 2\n", b"x", &SUMMARY).is_err());
        assert!(read("foldheron names 1\nversion 7\nstatements 4\n", b"x", &SUMMARY).unwrap_err().contains("no line 'sha256"));
    }
}
