//! Where a byte of a text stands, as editors count: lines and columns from 1, a column a character; and its line with a mark below it.

use crate::files::printable;

#[derive(Clone, Copy, PartialEq, Eq, Debug)]
pub struct Place {
    pub line: usize,
    pub column: usize,
}

/// The line and the column of a byte; of the text's end too.
pub fn of(text: &[u8], at: usize) -> Place {
    let begin = begins(text, at);
    Place { line: 1 + text[..begin].iter().filter(|byte| **byte == b'\n').count(), column: 1 + String::from_utf8_lossy(&text[begin..at]).chars().count() }
}

fn begins(text: &[u8], at: usize) -> usize {
    text[..at].iter().rposition(|byte| *byte == b'\n').map_or(0, |end| end + 1)
}

/// Of a longer line so many characters are shown before the mark, and as many from there on.
const SHOWN: usize = 60;

/// The line on which a byte stands, and below it a mark under the byte. Tabs stay, so that the mark is under it with any width of them.
pub fn marked(text: &[u8], at: usize) -> [String; 2] {
    let begin = begins(text, at);
    let end = text[at..].iter().position(|byte| *byte == b'\n').map_or(text.len(), |more| at + more);
    let shown = |bytes: &[u8]| -> Vec<char> { String::from_utf8_lossy(bytes).trim_end_matches('\r').split('\t').map(printable).collect::<Vec<_>>().join("\t").chars().collect() };
    let (before, after) = (shown(&text[begin..at]), shown(&text[at..end]));
    let left = before.len().saturating_sub(SHOWN);
    let head = if left == 0 { "" } else { ".." };
    let tail = if after.len() <= SHOWN { "" } else { ".." };
    let line: String = before[left..].iter().chain(after.iter().take(SHOWN)).collect();
    let blank: String = before[left..].iter().map(|c| if *c == '\t' { '\t' } else { ' ' }).collect();
    [format!("{}{}{}", head, line, tail), format!("{}{}^", " ".repeat(head.len()), blank)]
}

#[cfg(test)]
mod tests {
    use super::*;

    #[test]
    fn lines_and_columns() {
        let text = "version 1;\r\n\temit Ä;\n".as_bytes();
        assert_eq!(of(text, 0), Place { line: 1, column: 1 });
        assert_eq!(of(text, 13), Place { line: 2, column: 2 });
        assert_eq!(of(text, 20), Place { line: 2, column: 8 });
        assert_eq!(of(text, text.len()), Place { line: 3, column: 1 });
        assert_eq!(marked(text, 20), ["\temit Ä;".to_string(), "\t      ^".to_string()]);
        assert_eq!(marked(text, 8)[0], "version 1;");
        assert_eq!(marked(text, text.len()), ["".to_string(), "^".to_string()]);
    }

    #[test]
    fn a_long_line() {
        let text = [b"a".repeat(70), b"b".repeat(70)].concat();
        assert_eq!(marked(&text, 70), [format!("..{}{}..", "a".repeat(60), "b".repeat(60)), " ".repeat(62) + "^"]);
        assert_eq!(marked(&text[..120], 60), ["a".repeat(70) + &"b".repeat(50), " ".repeat(60) + "^"]);
    }
}
