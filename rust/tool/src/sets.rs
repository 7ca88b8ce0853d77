//! Sets of signals as people write and read them.

use crate::args::nearest;
use crate::labels::{members, number_name, Labels, Sort};
use crate::trouble::{Outcome, Trouble};

/// The word for a set without a signal.
pub const NONE: &str = "-";
/// What stands in the place of the outputs of a refused instant.
pub const UNKNOWN: &str = "x";
/// What marks an input that is not heard, and alone is the word for a set of which no input is heard.
pub const UNHEARD: &str = "?";

/// What is given of the inputs: those that are present and those that are not heard. The others are absent.
#[derive(Clone, Copy, PartialEq, Eq, Debug, Default)]
pub struct Given {
    pub present: u64,
    pub unheard: u64,
}

impl Given {
    /// A set in which every input is heard.
    pub fn heard(present: u64) -> Given {
        Given { present, unheard: 0 }
    }

    /// The absent ones of these inputs.
    pub fn absent(&self, inputs: u64) -> u64 {
        inputs & !(self.present | self.unheard)
    }
}

/// A set's members, those marked with + that were not in the set before it, and after them those that went, marked with -. Nothing is marked
/// where it is not known what was before.
pub fn changed(set: u64, before: Option<u64>, name: impl Fn(usize) -> String) -> String {
    changed_inputs(Given::heard(set), before.map(Given::heard), name)
}

/// The same of inputs, with those that are not heard at the end, marked with ?. One that is not heard, now or before, neither came nor went.
pub fn changed_inputs(now: Given, before: Option<Given>, name: impl Fn(usize) -> String) -> String {
    let before = before.map_or(now.present, |before| before.present & !now.unheard | now.present & before.unheard);
    let came = |n: usize| if before >> n & 1 == 0 { "+" } else { "" };
    let mut words: Vec<String> = members(now.present).map(|n| format!("{}{}", came(n), name(n))).collect();
    words.extend(members(before & !now.present).map(|n| format!("-{}", name(n))));
    words.extend(members(now.unheard).map(|n| format!("{}{}", UNHEARD, name(n))));
    if words.is_empty() {
        return NONE.to_string();
    }
    words.join(" ")
}

/// Sets in the words of --in.
pub fn in_words(sets: &[Given], labels: &Labels) -> String {
    let words: Vec<String> = sets.iter().map(|set| changed_inputs(*set, None, |n| labels.input(n))).collect();
    words.join("; ")
}

/// A set's members as a list in a sentence.
pub fn sentence(set: u64, name: impl Fn(usize) -> String) -> String {
    listed(&members(set).map(name).collect::<Vec<_>>())
}

pub fn listed(words: &[String]) -> String {
    match words {
        [] => "none".to_string(),
        [one] => one.clone(),
        [first @ .., last] => format!("{} and {}", first.join(", "), last),
    }
}

/// The same of a few; of many the first ones, and how many more there are.
pub fn few(words: &[String]) -> String {
    match words.len() {
        0..=8 => listed(words),
        n => format!("{} and {} more", words[..4].join(", "), n - 4),
    }
}

/// Pauses by their numbers, a few of them.
pub fn pauses(numbers: &[usize]) -> String {
    let words: Vec<String> = numbers.iter().map(usize::to_string).collect();
    format!("pause{} {}", if words.len() == 1 { "" } else { "s" }, few(&words))
}

/// A text with a semicolon for each line's end; empty lines, and a semicolon at a line's end, are no sets.
fn in_one_line(text: &str) -> String {
    let lines: Vec<&str> = text.lines().map(str::trim).filter(|line| !line.is_empty()).collect();
    match lines.split_last() {
        Some((last, before)) => before.iter().map(|line| line.strip_suffix(';').unwrap_or(line)).chain(Some(*last)).collect::<Vec<_>>().join(";"),
        None => String::new(),
    }
}

/// The first sets of such a text, and how many more there are.
pub fn first(text: &str) -> String {
    let line = in_one_line(text);
    let sets: Vec<&str> = line.split(';').map(str::trim).collect();
    match sets.len() {
        0..=16 => sets.join("; "),
        n => format!("{}; and {} more", sets[..12].join("; "), n - 12),
    }
}

/// The input sets of a text: names between semicolons or on lines of their own, `?` before one that is not heard, `-` for a set without an input, `?` for one of which no
/// input is heard.
pub fn parse(text: &str, labels: &Labels) -> Outcome<Vec<Given>> {
    in_one_line(text).split(';').enumerate().map(|(n, part)| set(part, labels).map_err(|trouble| placed(trouble, n))).collect()
}

fn placed(mut trouble: Trouble, n: usize) -> Trouble {
    trouble.lines[0] = format!("set {} of --in: {}", n + 1, trouble.lines[0]);
    trouble
}

fn set(part: &str, labels: &Labels) -> Outcome<Given> {
    let words: Vec<&str> = part.split(|c: char| c.is_whitespace() || c == ',').filter(|word| !word.is_empty()).collect();
    match words.as_slice() {
        [] => Err(Trouble::call("there is nothing in it").advise("write - for a set without an input; semicolons stand between sets alone")),
        [NONE] => Ok(Given::default()),
        [UNHEARD] => Ok(Given { present: 0, unheard: labels.all_inputs() }),
        _ if words.contains(&UNHEARD) => Err(lone_mark(&words, labels)),
        _ if words.contains(&NONE) => Err(Trouble::call("- stands alone, for a set without an input").advise("what is not named is absent: leave the - out")),
        _ => words.iter().try_fold(Given::default(), |given, word| with_input(given, word, labels)),
    }
}

/// A ? among other words: before the name of an input it may be meant for that, or for all the others.
fn lone_mark(words: &[&str], labels: &Labels) -> Trouble {
    let after = words.iter().skip_while(|word| **word != UNHEARD).nth(1);
    let trouble = Trouble::call("? stands alone, for a set of which no input is heard");
    match after.filter(|word| labels.find(word).is_some()) {
        Some(name) => trouble.advise(format!("is ?{} meant, without a space? that is: {} is not heard", name, name)),
        None => trouble.advise("write ?NAME for one input that is not heard"),
    }
}

/// The set with one input more, which is present, or after a ? not heard.
fn with_input(mut given: Given, word: &str, labels: &Labels) -> Outcome<Given> {
    match word.strip_prefix(UNHEARD) {
        None => given.present |= 1 << input(word, labels)?,
        Some(name) => given.unheard |= 1 << declared(name, labels)?,
    }
    match given.present & given.unheard {
        0 => Ok(given),
        both => Err(Trouble::call(format!("{} is given as present and as not heard", sentence(both, |n| labels.input(n))))),
    }
}

/// The number of an input that the block has: of another the library would not be told that it is not heard.
fn declared(name: &str, labels: &Labels) -> Outcome<usize> {
    let n = input(name, labels)?;
    if labels.inputs().contains(&n) {
        return Ok(n);
    }
    let trouble = no_input(format!("the block has no input '{}'", name), labels);
    Err(trouble.advise("without the ? the instant is refused with 11; of an input that is not heard the library is told nothing"))
}

/// The number of an input. One that the block does not have may be given by its number: the library refuses it.
fn input(word: &str, labels: &Labels) -> Outcome<usize> {
    match (labels.find(word), number_name(word)) {
        (Some(signal), _) if labels.sort(signal) == Some(Sort::Input) => Ok(signal),
        (Some(signal), _) => Err(no_input(format!("{} is no input but {} {}", word, article(labels, signal), "of the block"), labels)),
        (None, Some(('i', number))) if number < 64 => Ok(number),
        (None, Some(('i', _))) => Err(no_input(format!("the block has no input '{}', and no block has: i63 is the highest", word), labels)),
        (None, _) => {
            let near = near(word, labels, labels.inputs()).map(|name| format!("is {} meant?", name));
            let mut trouble = no_input(format!("the block has no input '{}'", word), labels);
            trouble.lines.splice(1..1, near);
            Err(trouble)
        }
    }
}

fn no_input(why: String, labels: &Labels) -> Trouble {
    Trouble::call(why).advise(format!("the block's inputs: {}", sentence(labels.all_inputs(), |n| labels.with_number(n))))
}

/// The signal of these that is called so in other letters, small for capital, or nearly so.
pub fn near(word: &str, labels: &Labels, signals: std::ops::Range<usize>) -> Option<String> {
    let names: Vec<String> = signals.map(|n| labels.signal(n)).collect();
    let same = names.iter().find(|name| name.eq_ignore_ascii_case(word)).map(String::as_str);
    same.or_else(|| nearest(word, names.iter().map(String::as_str))).map(str::to_string)
}

fn article(labels: &Labels, signal: usize) -> &'static str {
    match labels.sort(signal) {
        Some(Sort::Output) => "an output",
        _ => "a local",
    }
}

#[cfg(test)]
mod tests {
    use super::*;
    use foldheron::Summary;

    fn labels() -> Labels {
        let mut labels = Labels::numbered(&Summary { version: 7, inputs: 2, outputs: 1, locals: 1, statements: 4, pauses: 1 });
        labels.give(0, "DEMAND").unwrap();
        labels
    }

    #[test]
    fn parsed() {
        assert_eq!(parse("DEMAND; i0 i1,;-; i63", &labels()).unwrap(), [1, 3, 0, 1 << 63].map(Given::heard));
        assert_eq!(parse("DEMAND\n i1;\n\n-\n", &labels()).unwrap(), [1, 2, 0].map(Given::heard));
        for text in ["", "\n", "DEMAND;", "DEMAND;\n", "DEMAND;;\n-", "A", "o2", "s3", "i64", "- DEMAND", "demand"] {
            assert!(parse(text, &labels()).is_err(), "{}", text);
        }
    }

    #[test]
    fn not_heard() {
        let given = |present, unheard| Given { present, unheard };
        assert_eq!(parse("?DEMAND; i0 ?i1; ?; ?i0,?i1", &labels()).unwrap(), [given(0, 1), given(1, 2), given(0, 3), given(0, 3)]);
        assert_eq!([given(1, 2).absent(7), given(0, 3).absent(3)], [4, 0]);
        for text in ["DEMAND ?DEMAND", "?i2", "?i63", "?o2", "? DEMAND", "?-", "??i0", "?demand"] {
            assert!(parse(text, &labels()).is_err(), "{}", text);
        }
    }

    #[test]
    fn told_with_inputs_not_heard() {
        let (name, given) = (|n: usize| format!("i{}", n), |present, unheard| Given { present, unheard });
        assert_eq!(changed_inputs(given(0b0001, 0b0110), Some(given(0b0010, 0)), name), "+i0 ?i1 ?i2");
        assert_eq!(changed_inputs(given(0b0011, 0), Some(given(0b1000, 0b0101)), name), "i0 +i1 -i3");
        assert_eq!([changed_inputs(given(0, 3), None, name), changed_inputs(given(0, 0), Some(given(0, 3)), name)], ["?i0 ?i1", "-"]);
    }

    #[test]
    fn as_they_are_parsed() {
        let text = "DEMAND; DEMAND i1; -; ?DEMAND; i63";
        assert_eq!(in_words(&parse(text, &labels()).unwrap(), &labels()), text);
    }

    #[test]
    fn told() {
        let name = |n: usize| format!("s{}", n);
        assert_eq!(changed(0b1010, Some(0b0110), name), "s1 +s3 -s2");
        assert_eq!([changed(0, Some(0), name), changed(3, None, name)], ["-", "s0 s1"]);
        assert_eq!([sentence(0, name), sentence(1, name), sentence(7, name)], ["none", "s0", "s0, s1 and s2"]);
    }
}
