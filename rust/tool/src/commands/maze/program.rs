//! The block as kernel Esterel on the page: a line for each statement with its number, and the lines between, so that the statement of a room can be marked.

use super::Asked;
use crate::draw::escaped;
use std::fmt::Write;

/// A line of the text: the statement that begins there, if one does, how far it is indented, and its words.
struct Line {
    statement: Option<usize>,
    depth: usize,
    words: String,
}

/// The lines as elements; of an emit its signal's room is told too.
pub fn element(asked: &Asked) -> String {
    let mut lines = declared(asked);
    let mut next = 0;
    part(asked, &mut next, 0, &mut lines);
    lines.iter().map(|line| shown(asked, line)).collect()
}

fn shown(asked: &Asked, line: &Line) -> String {
    let words = format!("{}{}", "  ".repeat(line.depth), escaped(&line.words));
    let s = match line.statement {
        Some(i) => &asked.statements[i],
        None => return format!("<span class=\"line\"><span class=\"number\"></span>{}</span>", words),
    };
    let mut told = format!(" data-statement=\"{}\"", s.number);
    if let ("emit", Some(signal)) = (s.kind.name, s.operand) {
        let _ = write!(told, " data-emits=\"s{}\"", signal);
    }
    format!("<span class=\"line\"{}><span class=\"number\">{}</span>{}</span>", told, s.number, words)
}

fn declared(asked: &Asked) -> Vec<Line> {
    let labels = &asked.block.labels;
    let sorts = [("input", labels.inputs()), ("output", labels.outputs())];
    let there = sorts.into_iter().filter(|(_, range)| !range.is_empty());
    there.map(|(word, range)| plain(0, format!("{} {};", word, range.map(|n| labels.signal(n)).collect::<Vec<_>>().join(", ")))).collect()
}

fn plain(depth: usize, words: impl Into<String>) -> Line {
    Line { statement: None, depth, words: words.into() }
}

/// The statement that is next with all below it. `||` goes to the right, so a parallel on its left stands in brackets.
fn part(asked: &Asked, next: &mut usize, depth: usize, lines: &mut Vec<Line>) {
    let s = &asked.statements[*next];
    *next += 1;
    let signal = s.operand.map_or(String::new(), |signal| asked.block.labels.signal(signal.into()));
    let mut say = |words: String| lines.push(Line { statement: Some(s.number), depth, words });
    match s.kind.name {
        "present" => {
            say(format!("present {} then", signal));
            part(asked, next, depth + 1, lines);
            lines.push(plain(depth, "else"));
            part(asked, next, depth + 1, lines);
            lines.push(plain(depth, "end"));
        }
        "parallel" => {
            let inner = asked.statements[*next].kind.name == "parallel";
            lines.extend(inner.then(|| plain(depth, "[")));
            part(asked, next, depth + usize::from(inner), lines);
            lines.extend(inner.then(|| plain(depth, "]")));
            lines.push(Line { statement: Some(s.number), depth, words: "||".to_string() });
            part(asked, next, depth, lines);
        }
        "emit" => say(format!("emit {}", signal)),
        name => say(name.to_string()),
    }
}
