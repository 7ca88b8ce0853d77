//! What signals are called: by the block's names file, or else by their number, i0, o1 and s2 for an input, an output and a local.

use foldheron::Summary;

#[derive(Clone, Copy, PartialEq, Eq, Debug)]
pub enum Sort {
    Input,
    Output,
    Local,
}

pub const SORTS: [(Sort, &str, char); 3] = [(Sort::Input, "input", 'i'), (Sort::Output, "output", 'o'), (Sort::Local, "local", 's')];

impl Sort {
    pub fn word(self) -> &'static str {
        SORTS.iter().find(|row| row.0 == self).map_or("", |row| row.1)
    }

    fn letter(self) -> char {
        SORTS.iter().find(|row| row.0 == self).map_or('?', |row| row.2)
    }
}

/// How many signals of each sort a block has, and their names.
#[derive(Clone, PartialEq, Eq, Debug, Default)]
pub struct Labels {
    inputs: usize,
    outputs: usize,
    locals: usize,
    names: Vec<Option<String>>,
    /// The lines of the text on which the statements stand, by their numbers, as far as they are known.
    lines: Vec<Option<usize>>,
    /// The text that they are of.
    pub text: Option<Text>,
    /// Why the lines of the text are left out, where they are.
    pub stale: Option<String>,
}

/// A text as a names file names it: the SHA-256 of its bytes, and its path from the folder of that file.
#[derive(Clone, PartialEq, Eq, Debug)]
pub struct Text {
    pub sha256: String,
    pub path: String,
}

impl Labels {
    pub fn numbered(summary: &Summary) -> Labels {
        let (inputs, outputs, locals) = (summary.inputs.into(), summary.outputs.into(), summary.locals.into());
        Labels { inputs, outputs, locals, names: vec![None; inputs + outputs + locals], lines: vec![None; summary.statements.into()], text: None, stale: None }
    }

    /// Puts a statement on a line of the text; answers why it cannot be there.
    pub fn put_on_line(&mut self, statement: usize, line: usize) -> Result<(), String> {
        match self.lines.get_mut(statement) {
            None => Err(format!("there is no statement {}: the block has {}", statement, self.lines.len())),
            Some(Some(_)) => Err(format!("statement {} has a line already", statement)),
            Some(place) => {
                *place = Some(line);
                Ok(())
            }
        }
    }

    /// The line of a statement, where it is known.
    pub fn line(&self, statement: usize) -> Option<usize> {
        self.lines.get(statement).copied().flatten()
    }

    /// The same without the lines, for a reason.
    pub fn without_lines(mut self, why: String) -> Labels {
        self.lines.iter_mut().for_each(|line| *line = None);
        self.stale = Some(why);
        self
    }

    pub fn has_lines(&self) -> bool {
        self.lines.iter().any(Option::is_some)
    }

    pub fn signals(&self) -> usize {
        self.inputs + self.outputs + self.locals
    }

    pub fn inputs(&self) -> std::ops::Range<usize> {
        0..self.inputs
    }

    pub fn outputs(&self) -> std::ops::Range<usize> {
        self.inputs..self.inputs + self.outputs
    }

    /// A set with every input.
    pub fn all_inputs(&self) -> u64 {
        self.inputs().fold(0, |set, n| set | 1 << n)
    }

    /// A set with every output.
    pub fn all_outputs(&self) -> u64 {
        self.outputs().fold(0, |set, n| set | 1 << n)
    }

    pub fn sort(&self, signal: usize) -> Option<Sort> {
        if signal < self.inputs {
            Some(Sort::Input)
        } else if signal < self.inputs + self.outputs {
            Some(Sort::Output)
        } else if signal < self.signals() {
            Some(Sort::Local)
        } else {
            None
        }
    }

    /// Gives a signal its name; answers why it cannot have it.
    pub fn give(&mut self, signal: usize, name: &str) -> Result<(), String> {
        let sort = self.sort(signal).ok_or_else(|| format!("there is no signal {}: the block has {}", signal, self.signals()))?;
        may_be_name(name)?;
        match number_name(name) {
            Some((letter, number)) if (letter, number) != (sort.letter(), signal) => {
                return Err(format!("'{}' reads as another signal's number", name));
            }
            _ => {}
        }
        if let Some(other) = self.find(name) {
            if other != signal {
                return Err(format!("'{}' is signal {}'s name already", name, other));
            }
        }
        self.names[signal] = Some(name.to_string());
        Ok(())
    }

    pub fn name(&self, signal: usize) -> Option<&str> {
        self.names.get(signal).and_then(|name| name.as_deref())
    }

    fn told(&self, signal: usize, letter: char) -> String {
        self.name(signal).map_or_else(|| format!("{}{}", letter, signal), str::to_string)
    }

    pub fn signal(&self, signal: usize) -> String {
        self.told(signal, self.sort(signal).map_or('?', Sort::letter))
    }

    /// A name, and the number beside it where they are two.
    pub fn with_number(&self, signal: usize) -> String {
        let number = format!("{}{}", self.sort(signal).map_or('?', Sort::letter), signal);
        match self.name(signal) {
            Some(name) => format!("{} ({})", name, number),
            None => number,
        }
    }

    /// An input by number; one that the block does not have too.
    pub fn input(&self, signal: usize) -> String {
        if signal < self.inputs {
            self.told(signal, 'i')
        } else {
            format!("i{}", signal)
        }
    }

    /// An output by number; also where nothing is known of the block.
    pub fn output(&self, signal: usize) -> String {
        self.told(signal, 'o')
    }

    /// The signal of a name, or of a number with its sort's letter.
    pub fn find(&self, word: &str) -> Option<usize> {
        let named = self.names.iter().position(|name| name.as_deref() == Some(word));
        named.or_else(|| {
            let (letter, number) = number_name(word)?;
            let sort = self.sort(number)?;
            Some(number).filter(|_| sort.letter() == letter)
        })
    }
}

/// The signals of a set by their numbers.
pub fn members(set: u64) -> impl Iterator<Item = usize> {
    (0..64).filter(move |n| set >> n & 1 == 1)
}

/// Letters, digits and _, a letter first, 32 at most.
fn may_be_name(name: &str) -> Result<(), String> {
    let good = |byte: u8| byte.is_ascii_alphanumeric() || byte == b'_';
    match name.as_bytes() {
        [first, rest @ ..] if first.is_ascii_alphabetic() && rest.iter().all(|byte| good(*byte)) && rest.len() < 32 => Ok(()),
        _ => Err(format!("'{}' is no name: letters, digits and _, a letter first, 32 at most", name)),
    }
}

/// The letter and the number of a word such as i0, O1 or s63.
pub fn number_name(word: &str) -> Option<(char, usize)> {
    let mut chars = word.chars();
    let letter = chars.next()?.to_ascii_lowercase();
    let digits = chars.as_str();
    let plain = !digits.is_empty() && digits.len() < 6 && digits.bytes().all(|byte| byte.is_ascii_digit());
    if !plain || !SORTS.iter().any(|row| row.2 == letter) {
        return None;
    }
    digits.parse().ok().map(|number| (letter, number))
}

#[cfg(test)]
mod tests {
    use super::*;

    fn labels() -> Labels {
        Labels::numbered(&Summary { version: 7, inputs: 2, outputs: 1, locals: 1, statements: 4, pauses: 1 })
    }

    #[test]
    fn numbers_and_names() {
        let mut l = labels();
        assert_eq!((0..5).map(|n| l.signal(n)).collect::<Vec<_>>(), ["i0", "i1", "o2", "s3", "?4"]);
        l.give(0, "DEMAND").unwrap();
        assert_eq!(l.signal(0), "DEMAND");
        assert_eq!(l.with_number(0), "DEMAND (i0)");
        assert_eq!([l.find("DEMAND"), l.find("i0"), l.find("I1"), l.find("o1"), l.find("demand")], [Some(0), Some(0), Some(1), None, None]);
        assert_eq!(l.all_outputs(), 4);
    }

    #[test]
    fn names_that_cannot_be() {
        let mut l = labels();
        assert!(l.give(0, "A").is_ok() && l.give(0, "A").is_ok());
        for (signal, name) in [(1, "A"), (1, "i0"), (1, ""), (1, "7UP"), (1, "-"), (1, "A B"), (1, "Ä"), (4, "X"), (1, "o1")] {
            assert!(l.give(signal, name).is_err(), "{}", name);
        }
        assert!(l.give(1, "I1").is_ok());
        assert!(l.give(1, &"N".repeat(32)).is_ok() && l.give(1, &"N".repeat(33)).is_err());
    }
}
