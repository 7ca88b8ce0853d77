//! A block as an indented tree, a line a statement: its number, its offset, its line in the text, and the statement with its signal, its pause or its trap.

use crate::labels::Labels;
use crate::layout::Operand;
use crate::names::tell_stale;
use crate::walk::Statement;

/// The line above the tree; with the lines of the text where these are known. Where they are left out that is told.
pub fn head(labels: &Labels) -> String {
    tell_stale(labels);
    format!(" no.  offset  {}statement", if labels.has_lines() { "line  " } else { "" })
}

/// The lines of the statements from one on, down to where the part that it begins ends. `mark` is put behind a statement.
pub fn rows(statements: &[Statement], labels: &Labels, mark: impl Fn(&Statement) -> Option<String>) -> Vec<String> {
    let base = statements.first().map_or(0, |first| first.level);
    let row = |(at, s): (usize, &Statement)| {
        let indent = "  ".repeat(s.level.saturating_sub(base));
        let behind = mark(s).map_or(String::new(), |mark| format!("  {}", mark));
        let line = match labels.line(s.number) {
            Some(line) => format!("{:4}  ", line),
            None => " ".repeat(if labels.has_lines() { 6 } else { 0 }),
        };
        format!("{:4}  {:6}  {}{}{}{}", s.number, s.offset, line, indent, in_words(statements, at, labels), behind)
    };
    statements.iter().enumerate().map(row).collect()
}

/// One statement in words.
pub fn in_words(statements: &[Statement], at: usize, labels: &Labels) -> String {
    let s = &statements[at];
    let part = if s.part.is_empty() { String::new() } else { format!("{}: ", s.part) };
    let operand = match (s.kind.operand, s.operand) {
        (Operand::Signal, Some(signal)) => format!(" {}", labels.with_number(signal.into())),
        (Operand::Depth, Some(depth)) => format!(" {}{}", depth, leaves(statements, at, depth.into())),
        _ => s.pause.map_or(String::new(), |number| format!(" {}", number)),
    };
    format!("{}{}{}", part, s.kind.name, operand)
}

/// Which trap an exit leaves, where that stands among the statements that are shown.
fn leaves(statements: &[Statement], at: usize, depth: usize) -> String {
    let mut level = statements[at].level;
    let mut passed = 0;
    for above in statements[..at].iter().rev() {
        if above.level >= level {
            continue;
        }
        level = above.level;
        if above.kind.name != "trap" {
            continue;
        }
        if passed == depth {
            return format!(", of the trap at {}", above.number);
        }
        passed += 1;
    }
    String::new()
}
