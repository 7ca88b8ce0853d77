//! The words of a call: options that a command declares, with or without a value, and the free words between them.

use crate::trouble::{Outcome, Trouble};
use std::ffi::{OsStr, OsString};
use std::os::unix::ffi::{OsStrExt, OsStringExt};

/// An option with its line of the help; one that takes a value says what stands for it.
pub struct Opt {
    pub name: &'static str,
    pub value: Option<&'static str>,
    pub help: &'static str,
}

pub const fn flag(name: &'static str, help: &'static str) -> Opt {
    Opt { name, value: None, help }
}

pub const fn with(name: &'static str, value: &'static str, help: &'static str) -> Opt {
    Opt { name, value: Some(value), help }
}

#[derive(Default)]
pub struct Words {
    pub free: Vec<OsString>,
    given: Vec<(&'static str, OsString)>,
}

impl Words {
    pub fn has(&self, name: &str) -> bool {
        self.value(name).is_some()
    }

    /// An option's value, empty for one that takes none.
    pub fn value(&self, name: &str) -> Option<&OsStr> {
        self.given.iter().find(|(given, _)| *given == name).map(|(_, value)| value.as_os_str())
    }

    /// The options of this list that are given: more than one of them are a wrong call.
    pub fn at_most_one(&self, names: &[&'static str]) -> Outcome<Option<&'static str>> {
        let given: Vec<_> = names.iter().copied().filter(|name| self.has(name)).collect();
        match given.as_slice() {
            [first, second, ..] => Err(Trouble::call(format!("{} and {} do not go together", first, second))),
            _ => Ok(given.first().copied()),
        }
    }

    /// The free words, as many as these names.
    pub fn exactly<const N: usize>(&self, names: [&str; N]) -> Outcome<[&OsStr; N]> {
        if self.free.len() < N {
            return Err(Trouble::call(format!("{} is missing", names[self.free.len()])));
        }
        if let Some(more) = self.free.get(N) {
            return Err(Trouble::call(format!("'{}' is one word too many", more.to_string_lossy())));
        }
        let mut all = [OsStr::new(""); N];
        for (place, word) in all.iter_mut().zip(&self.free) {
            *place = word;
        }
        Ok(all)
    }
}

/// Sorts the words that follow a command's name. After `--` every word is free, and -o is short for --to.
pub fn sort(options: &'static [Opt], words: &[OsString]) -> Outcome<Words> {
    let mut sorted = Words::default();
    let mut rest = words.iter();
    while let Some(word) = rest.next() {
        if word == "--" {
            sorted.free.extend(rest.by_ref().cloned());
        } else if word.as_bytes().first() != Some(&b'-') || word == "-" {
            sorted.free.push(word.clone());
        } else {
            let (name, joined) = parted(word);
            let option = find(options, &name)?;
            if sorted.has(option.name) {
                return Err(Trouble::call(format!("{} is given twice", option.name)));
            }
            let value = value_of(option, joined, &mut rest)?;
            sorted.given.push((option.name, value));
        }
    }
    Ok(sorted)
}

/// The parts of `--name=value`.
fn parted(word: &OsStr) -> (String, Option<OsString>) {
    let bytes = word.as_bytes();
    match bytes.iter().position(|byte| *byte == b'=') {
        Some(at) => (String::from_utf8_lossy(&bytes[..at]).into_owned(), Some(OsString::from_vec(bytes[at + 1..].to_vec()))),
        None => (word.to_string_lossy().into_owned(), None),
    }
}

fn find(options: &'static [Opt], name: &str) -> Outcome<&'static Opt> {
    let name = if name == "-o" { "--to" } else { name };
    options.iter().find(|option| option.name == name).ok_or_else(|| {
        let trouble = Trouble::call(format!("there is no option {}", name));
        match nearest(name, options.iter().map(|option| option.name)) {
            Some(near) => trouble.advise(format!("is {} meant?", near)),
            None => trouble,
        }
    })
}

fn value_of<'a>(option: &Opt, joined: Option<OsString>, rest: &mut impl Iterator<Item = &'a OsString>) -> Outcome<OsString> {
    match (option.value, joined) {
        (Some(_), Some(value)) => Ok(value),
        (Some(what), None) => rest.next().cloned().ok_or_else(|| Trouble::call(format!("{} wants its {}", option.name, what))),
        (None, None) => Ok(OsString::new()),
        (None, Some(_)) => Err(Trouble::call(format!("{} takes no value", option.name))),
    }
}

/// The name that differs least from a word: by two letters at most, and by less than half of it.
pub fn nearest<'a>(word: &str, names: impl Iterator<Item = &'a str>) -> Option<&'a str> {
    let most = 2.min(word.len().saturating_sub(1) / 2);
    names.map(|name| (distance(word.as_bytes(), name.as_bytes()), name)).filter(|(far, _)| *far <= most).min().map(|(_, name)| name)
}

/// How many letters have to be put in, left out or changed.
fn distance(a: &[u8], b: &[u8]) -> usize {
    let mut row: Vec<usize> = (0..=b.len()).collect();
    for (i, x) in a.iter().enumerate() {
        let mut corner = row[0];
        row[0] = i + 1;
        for (j, y) in b.iter().enumerate() {
            let changed = corner + usize::from(x != y);
            corner = row[j + 1];
            row[j + 1] = changed.min(corner + 1).min(row[j] + 1);
        }
    }
    row[b.len()]
}

#[cfg(test)]
mod tests {
    use super::*;

    static OPTIONS: [Opt; 2] = [flag("--json", ""), with("--in", "SETS", "")];

    fn words(text: &str) -> Outcome<Words> {
        sort(&OPTIONS, &text.split(' ').map(OsString::from).collect::<Vec<_>>())
    }

    #[test]
    fn options_and_free_words() {
        let sorted = words("a --in=A;B - --json -- --in").unwrap();
        assert_eq!(sorted.free, ["a", "-", "--in"]);
        assert_eq!(sorted.value("--in").unwrap(), "A;B");
        assert!(sorted.has("--json"));
    }

    #[test]
    fn wrong_calls() {
        let said = |text| words(text).err().map(|trouble| trouble.lines.join("; "));
        assert_eq!(said("--in").unwrap(), "--in wants its SETS");
        assert_eq!(said("--json=1").unwrap(), "--json takes no value");
        assert_eq!(said("--json --json").unwrap(), "--json is given twice");
        assert_eq!(said("--jsn").unwrap(), "there is no option --jsn; is --json meant?");
        assert_eq!(said("--colour").unwrap(), "there is no option --colour");
    }

    #[test]
    fn distances() {
        assert_eq!(distance(b"inputs", b"input"), 1);
        assert_eq!(distance(b"", b"abc"), 3);
        assert_eq!(distance(b"kitten", b"sitting"), 3);
    }
}
