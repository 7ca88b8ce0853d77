//! The tree of a block as a graph for the program dot: what is active in a state has a second line round it, and what runs a thick one.

use super::Shown;
use crate::output::Out;
use crate::tree;
use crate::trouble::Outcome;

pub fn told(shown: &Shown, out: &mut Out) -> Outcome<()> {
    out.line("digraph block {")?;
    out.line("  node [shape=box];")?;
    for (n, s) in shown.statements.iter().enumerate() {
        let style = if shown.is_active(n) { ", peripheries=2, penwidth=2" } else if shown.runs(n..shown.end(n)) { ", penwidth=2" } else { "" };
        let words = tree::in_words(&shown.statements, n, &shown.block.labels);
        let said = words.strip_prefix(&format!("{}: ", s.part)).unwrap_or(&words);
        out.line(&format!("  s{} [label=\"{}  {}\"{}];", n, n, said, style))?;
    }
    for (n, s) in shown.statements.iter().enumerate().skip(1) {
        let above = shown.statements[..n].iter().rev().find(|other| other.level < s.level).map_or(0, |other| other.number);
        let part = if s.part.is_empty() { String::new() } else { format!(" [label=\"{}\"]", s.part) };
        out.line(&format!("  s{} -> s{}{};", above, n, part))?;
    }
    out.line("}")
}
