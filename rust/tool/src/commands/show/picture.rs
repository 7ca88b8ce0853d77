//! The tree of a block as a chart: a sequence one below the other, a parallel side by side, the others round what they hold; what is active in a state is marked.

use super::Shown;
use crate::draw::chart::{Frame, Stands, Told};
use crate::draw::heads::{Lines, LEAST};
use crate::draw::text::Words;
use crate::draw::{at, style, Area, Picture};
use crate::saved::in_words;
use crate::tree;

const MARGIN: f64 = 20.0;
const KEY: &str = "One below the other: in sequence. With a double line between: in parallel. Sequences and parallels have no box of their own. Small numbers are the statements'.";

/// A file of its own.
pub fn file(shown: &Shown) -> String {
    drawn(shown, true).file(&heading(shown), &about(shown))
}

/// For a page that has the style, and the heading.
pub fn element(shown: &Shown) -> String {
    drawn(shown, false).element(&heading(shown), &about(shown))
}

fn heading(shown: &Shown) -> String {
    format!("The block {}", shown.block.title())
}

fn about(shown: &Shown) -> String {
    let state = state(shown).map_or(String::new(), |said| format!("; {}", said));
    format!("The statements of the block as boxes within boxes{}", state)
}

/// What the state says, and how it is marked.
fn state(shown: &Shown) -> Option<String> {
    shown.state.map(|state| match state.phase_name() {
        Some("running") if state.pauses().len() == 1 => format!("{}: it is marked, and frames round it have thick lines", in_words(&state)),
        Some("running") => format!("{}: these are marked, and frames round them have thick lines", in_words(&state)),
        _ => format!("its state: {}", in_words(&state)),
    })
}

fn drawn(shown: &Shown, has_heads: bool) -> Picture {
    let (root, _) = part(shown, 0);
    let (width, height) = root.size();
    let least = width.max(LEAST);
    let about: Vec<String> = std::iter::once(shown.block.counts()).chain(state(shown)).collect();
    let heads = if has_heads { Lines::heading(&heading(shown), &about, least) } else { Lines::default() };
    let mut key = Lines::default();
    key.add(&Words::new(KEY, 11.0), "faint key", least);
    let top = MARGIN + heads.height(8.0);
    let mut picture = Picture::new(key.width(heads.width(least)) + 2.0 * MARGIN, top + height + 6.0 + key.height(0.0) + MARGIN, &style::CHART);
    heads.draw(at(MARGIN, MARGIN), &mut picture);
    root.draw(Area::of(MARGIN, top, width, height), &mut picture);
    key.draw(at(MARGIN, top + height + 7.0), &mut picture);
    picture
}

/// The box of a statement with all below it, and the number of the statement that comes after them.
fn part(shown: &Shown, n: usize) -> (Frame, usize) {
    let s = &shown.statements[n];
    let (mut parts, mut next) = (Vec::new(), n + 1);
    for _ in s.kind.parts {
        let (below, after) = part(shown, next);
        parts.push(below);
        next = after;
    }
    let stands = match s.kind.name {
        "sequence" => Stands::Below,
        "parallel" => Stands::Beside,
        "present" => Stands::Branches,
        _ if s.kind.parts.is_empty() => Stands::Alone,
        _ => Stands::Within,
    };
    let runs = if shown.is_active(n) { " active" } else if shown.runs(n..next) { " running" } else { "" };
    let title = format!("statement {}: {}", n, tree::in_words(&shown.statements, n, &shown.block.labels));
    let over: &[&str] = if stands == Stands::Branches { s.kind.parts } else { &[] };
    let told = Told { number: n, words: words(shown, n), class: format!("{}{}", s.kind.name, runs), title };
    (Frame::new(told, stands, parts, over), next)
}

/// The words in a box.
fn words(shown: &Shown, n: usize) -> String {
    let s = &shown.statements[n];
    match (s.kind.name, s.operand) {
        ("exit", Some(_)) => tree::in_words(&shown.statements, n, &shown.block.labels).replace("then: ", "").replace("else: ", "").replace(", of the trap at", ": trap"),
        (name, Some(signal)) => format!("{} {}", name, shown.block.labels.signal(signal.into())),
        (name, None) => s.pause.map_or(name.to_string(), |pause| format!("{} {}", name, pause)),
    }
}
