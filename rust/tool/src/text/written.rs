//! The text that the library writes for a block, with names that somebody gave in the place of those it makes from numbers. It is laid out line by line, so a longer name moves nothing else.

use super::place;
use super::source::Source;
use super::token::{may_be_name, tokens, Sort, Token};
use crate::labels::{number_name, Labels};

/// The names of a text in their order. It is the same in every text of a block: layout and brackets do not change it.
pub fn names_of(text: &[u8]) -> Vec<String> {
    tokens(text).iter().filter(|token| token.sort == Sort::Name).map(Token::shown).collect()
}

/// A text with these names in the place of its own, one after the other.
pub fn renamed(text: &[u8], names: &[String]) -> Vec<u8> {
    let mut out = Vec::new();
    let mut at = 0;
    for (token, name) in tokens(text).iter().filter(|token| token.sort == Sort::Name).zip(names) {
        out.extend_from_slice(&text[at..token.place]);
        out.extend_from_slice(name.as_bytes());
        at = token.place + token.bytes.len();
    }
    out.extend_from_slice(&text[at..]);
    out
}

/// The text of a block with the names that its signals have, as far as they may stand in a text.
pub fn with_labels(text: &[u8], block: &[u8], labels: &Labels) -> Vec<u8> {
    let made = names_of(text);
    let named = |name: &dyn Fn(usize) -> Option<String>| {
        let names: Vec<String> = made.iter().map(|made| signal(made).and_then(name).unwrap_or_else(|| made.clone())).collect();
        renamed(text, &names)
    };
    let full = named(&|n| makers_name(labels, n));
    if stands_for(&full, block) {
        return full;
    }
    // Two names are one here, or one is a name that the library makes: those go by what the library makes.
    let all: Vec<String> = (0..labels.signals()).filter_map(|n| makers_name(labels, n)).collect();
    let alone = |name: &String| all.iter().filter(|other| *other == name).count() == 1 && !is_made(name);
    let some = named(&|n| makers_name(labels, n).filter(alone));
    if stands_for(&some, block) {
        some
    } else {
        text.to_vec()
    }
}

/// Whether a text is this block's and declares no name again.
fn stands_for(text: &[u8], block: &[u8]) -> bool {
    let source = Source::of(text);
    !source.is_declared_again && source.bytes() == block
}

/// The signal of a name that the library made; none of a trap's.
fn signal(made: &str) -> Option<usize> {
    number_name(made).map(|(_, number)| number)
}

/// Whether the library makes such names: a letter for what it is, and a number.
fn is_made(name: &str) -> bool {
    name.starts_with(|first| "IOST".contains(first)) && name[1..].bytes().all(|byte| byte.is_ascii_digit())
}

/// What the maker called a signal, without the number that `keep` puts behind it.
fn given_name(labels: &Labels, signal: usize) -> Option<&str> {
    let name = labels.name(signal)?;
    Some(name.strip_suffix(&format!("_{}", signal)).unwrap_or(name))
}

/// The same, where that may be a name in a text.
fn makers_name(labels: &Labels, signal: usize) -> Option<String> {
    given_name(labels, signal).filter(|name| may_be_name(name)).map(str::to_string)
}

/// The names that a text of a block has not, each with what stands there in its place.
pub fn replaced(text: &[u8], labels: &Labels) -> Vec<(String, String)> {
    let here = Source::of(text).signals.into_iter().map(|declared| String::from_utf8_lossy(declared.name).into_owned());
    let pairs = here.enumerate().filter_map(|(signal, here)| given_name(labels, signal).map(|name| (name.to_string(), here)));
    pairs.filter(|(name, here)| name != here).collect()
}

/// Gives the statements the lines of a text, and the signals its names. One that another signal has, or that reads as another's number, gets its own number behind it: these are given back.
pub fn keep(labels: &mut Labels, text: &[u8], source: &Source) -> Vec<(String, String)> {
    let mut changed = Vec::new();
    for (statement, record) in source.records.iter().enumerate() {
        // Each has one, so it may be put there.
        let _ = labels.put_on_line(statement, place::of(text, record.place).line);
    }
    for (signal, declared) in source.signals.iter().enumerate() {
        let name = String::from_utf8_lossy(declared.name).into_owned();
        if labels.give(signal, &name).is_err() {
            let kept = format!("{}_{}", name, signal);
            if labels.give(signal, &kept).is_ok() {
                changed.push((name, kept));
            }
        }
    }
    changed
}

#[cfg(test)]
mod tests {
    use super::*;
    use foldheron::Summary;

    const TEXT: &[u8] = b"version 1;\ninput I0;\noutput O1;\nsignal S2 in\n  emit S2\nend;\nsignal S3 in\n  present I0 then\n    trap T0 in\n      exit T0\n    end\n  else\n    emit O1\n  end\nend\n";

    fn labels(names: [&str; 4]) -> Labels {
        let mut labels = Labels::numbered(&Summary { version: 1, inputs: 1, outputs: 1, locals: 2, statements: 7, pauses: 0 });
        for (n, name) in names.iter().enumerate().filter(|(_, name)| !name.is_empty()) {
            labels.give(n, name).unwrap();
        }
        labels
    }

    fn shown(names: [&str; 4]) -> Vec<String> {
        let block = Source::of(TEXT).bytes();
        names_of(&with_labels(TEXT, &block, &labels(names)))
    }

    #[test]
    fn names_that_are_given() {
        assert_eq!(shown(["", "", "", ""]), names_of(TEXT));
        let pair = |name: &str, here: &str| (name.to_string(), here.to_string());
        assert_eq!(replaced(TEXT, &labels(["I0", "O_UT", "", "B_3"])), [pair("O_UT", "O1"), pair("B", "S3")]);
        assert_eq!(shown(["IN", "OUT", "A", "B"]).join(" "), "IN OUT A A B IN T0 T0 OUT");
        // Two locals side by side may have one name; one name with an underscore is none in a text.
        assert_eq!(shown(["IN", "O_UT", "A", "A_3"]).join(" "), "IN O1 A A A IN T0 T0 O1");
        // A name that is a trap's, and one that is declared around.
        assert_eq!(shown(["T0", "OUT", "A", "B"]).join(" "), "I0 OUT A A B I0 T0 T0 OUT");
        assert_eq!(shown(["IN", "OUT", "IN_2", "B"]).join(" "), "I0 OUT S2 S2 B I0 T0 T0 OUT");
    }

    #[test]
    fn names_that_are_kept() {
        let text = b"version 1; input S3; output O1;\nsignal A in nothing end;\nsignal A in nothing end";
        let mut labels = labels(["", "", "", ""]);
        let changed = keep(&mut labels, text, &Source::of(text));
        assert_eq!((0..6).map(|n| labels.line(n)).collect::<Vec<_>>(), [Some(2), Some(2), Some(2), Some(3), Some(3), None]);
        assert_eq!((0..4).map(|n| labels.signal(n)).collect::<Vec<_>>(), ["S3_0", "O1", "A", "A_3"]);
        assert_eq!(changed, [("S3".to_string(), "S3_0".to_string()), ("A".to_string(), "A_3".to_string())]);
    }
}
