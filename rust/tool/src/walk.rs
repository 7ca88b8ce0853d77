//! Reads a block's records from the front, with what is around each: for the tree that is shown, and for the words on a refused record. What is
//! good and what is refused is the library's to say; this only follows the records as far as they can be followed.

use crate::layout::{two, Header, Kind, Operand, HEAD, HEADER};

#[derive(Clone, Debug)]
pub struct Statement {
    pub number: usize,
    pub offset: usize,
    pub kind: &'static Kind,
    pub operand: Option<u16>,
    /// How many statements are above it.
    pub level: usize,
    /// What it is to the statement above it: `then`, `else`, or nothing to say.
    pub part: &'static str,
    /// The number of the pause, of a pause.
    pub pause: Option<usize>,
}

/// What is around the record that is due.
#[derive(Clone, Debug, Default)]
pub struct Around {
    /// The kinds of the statements above, the root's first.
    pub above: Vec<&'static str>,
    pub pauses: usize,
    pub locals: usize,
}

impl Around {
    pub fn count(&self, name: &str) -> usize {
        self.above.iter().filter(|kind| **kind == name).count()
    }
}

pub struct Walk {
    pub header: Option<Header>,
    pub statements: Vec<Statement>,
    /// The first byte that was not read, and what is around it.
    pub at: usize,
    pub around: Around,
}

/// A statement whose children are not all read: how many were.
struct Open {
    kind: &'static Kind,
    read: usize,
}

/// The records before an offset, or up to the first that is none or the tree's end.
pub fn walk(block: &[u8], until: usize) -> Walk {
    let header = Header::of(block);
    let mut walk = Walk { header, statements: Vec::new(), at: if header.is_some() { HEADER } else { 0 }, around: Around::default() };
    let mut open: Vec<Open> = Vec::new();
    while header.is_some() && walk.at < until && !(open.is_empty() && !walk.statements.is_empty()) {
        match record(block, walk.at) {
            Some((kind, operand)) => take(&mut walk, &mut open, kind, operand),
            None => break,
        }
    }
    walk.around.above = open.iter().map(|o| o.kind.name).collect();
    walk
}

/// The statement's record at an offset, where one of its kind's length stands there.
fn record(block: &[u8], at: usize) -> Option<(&'static Kind, Option<u16>)> {
    let kind = Kind::at(block, at)?;
    if usize::from(two(block, at)?) != kind.length() {
        return None;
    }
    match kind.operand {
        Operand::None => Some((kind, None)),
        _ => two(block, at + HEAD).map(|operand| (kind, Some(operand))),
    }
}

fn take(walk: &mut Walk, open: &mut Vec<Open>, kind: &'static Kind, operand: Option<u16>) {
    let part = open.last().map_or("", |o| o.kind.parts[o.read]);
    let is_pause = kind.name == "pause";
    let pause = Some(walk.around.pauses).filter(|_| is_pause);
    walk.around.pauses += usize::from(is_pause);
    walk.around.locals += usize::from(kind.name == "local");
    let number = walk.statements.len();
    walk.statements.push(Statement { number, offset: walk.at, kind, operand, level: open.len(), part, pause });
    walk.at += kind.length();
    open.push(Open { kind, read: 0 });
    while open.last().map_or(false, |o| o.read == o.kind.parts.len()) {
        open.pop();
        if let Some(above) = open.last_mut() {
            above.read += 1;
        }
    }
}

/// A record in words, as far as it goes: its length, its kind by name, its operands.
pub fn in_words(block: &[u8], at: usize) -> String {
    let (length, number) = match (two(block, at), two(block, at + 2)) {
        (Some(length), Some(number)) => (length, number),
        _ => return format!("{} of a record's head, which has 4", left(block, at)),
    };
    let mut words = format!("length {}, kind {}", length, number);
    match Kind::at(block, at) {
        Some(kind) if at > 0 => {
            words.push_str(&format!(" ({})", kind.name));
            if let (true, Some(operand)) = (kind.operand != Operand::None, two(block, at + HEAD)) {
                let what = if kind.operand == Operand::Signal { "signal" } else { "depth" };
                words.push_str(&format!(", {} {}", what, operand));
            }
        }
        _ => words.push_str(&header_words(block, at, number)),
    }
    words
}

fn header_words(block: &[u8], at: usize, number: u16) -> String {
    match Header::of(&block[at..]) {
        Some(h) => format!(
            " (header), edition {}, version {}, {}, {}, {}",
            h.edition, h.version, counted(h.inputs.into(), "input"), counted(h.outputs.into(), "output"), counted(h.locals.into(), "local")
        ),
        None if number == crate::layout::HEADER_KIND => " (header)".to_string(),
        None => " (no kind of statement)".to_string(),
    }
}

/// How many bytes come from an offset on.
pub fn left(block: &[u8], at: usize) -> String {
    match block.len().saturating_sub(at) {
        0 => "no byte".to_string(),
        n => counted(n as u64, "byte"),
    }
}

/// A number with its noun, which gets an s where it is not one.
pub fn counted(n: u64, noun: &str) -> String {
    format!("{} {}{}", grouped(n), noun, if n == 1 { "" } else { "s" })
}

/// A number with its thousands parted.
pub fn grouped(n: u64) -> String {
    let digits = n.to_string();
    let mut text = String::new();
    for (at, digit) in digits.chars().enumerate() {
        if at > 0 && (digits.len() - at) % 3 == 0 {
            text.push(',');
        }
        text.push(digit);
    }
    text
}

#[cfg(test)]
mod tests {
    use super::*;

    /// suspend, on I: pause; emit O. Document 01's own bytes.
    const BLOCK: [u8; 34] = [14, 0, 1, 0, 1, 0, 7, 0, 1, 0, 1, 0, 0, 0, 6, 0, 20, 0, 0, 0, 4, 0, 21, 0, 4, 0, 17, 0, 6, 0, 18, 0, 1, 0];

    #[test]
    fn the_documents_block() {
        let walk = walk(&BLOCK, BLOCK.len());
        let rows: Vec<_> = walk.statements.iter().map(|s| (s.number, s.offset, s.kind.name, s.operand, s.level, s.pause)).collect();
        let expected = [
            (0, 14, "suspend", Some(0), 0, None),
            (1, 20, "sequence", None, 1, None),
            (2, 24, "pause", None, 2, Some(0)),
            (3, 28, "emit", Some(1), 2, None),
        ];
        assert_eq!(rows, expected);
        assert_eq!((walk.at, walk.around.above.len()), (34, 0));
    }

    #[test]
    fn cut_off_and_damaged() {
        for length in 0..BLOCK.len() {
            let walk = walk(&BLOCK[..length], length);
            assert!(walk.at <= length && walk.statements.len() < 4);
        }
        let cut = walk(&BLOCK, 28);
        assert_eq!(cut.around.above, ["suspend", "sequence"]);
        assert_eq!(in_words(&BLOCK, 28), "length 6, kind 18 (emit), signal 1");
        assert_eq!(in_words(&BLOCK, 0), "length 14, kind 1 (header), edition 1, version 7, 1 input, 1 output, 0 locals");
        assert_eq!(in_words(&BLOCK, 33), "1 byte of a record's head, which has 4");
    }

    #[test]
    fn numbers_in_words() {
        assert_eq!([grouped(0), grouped(999), grouped(3086), grouped(10_000_000)], ["0", "999", "3,086", "10,000,000"]);
        assert_eq!([counted(1, "pause"), counted(2, "pause")], ["1 pause", "2 pauses"]);
    }
}
