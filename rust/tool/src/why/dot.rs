//! What a 13 waits for as a graph for the program dot: tests as boxes, emits as ellipses, inputs that are not heard in bold.

use super::reach::Stands;
use super::route::Waiting;
use super::Question;
use crate::output::Out;
use crate::status::Status;
use crate::trouble::{Outcome, Trouble};

pub fn told(question: &Question, waiting: Option<&Waiting>, out: &mut Out) -> Outcome<Status> {
    let waiting = waiting.ok_or_else(|| Trouble::new(Status::Refused, "what it waits for could not be followed"))?;
    out.line("digraph why {")?;
    let met = waiting.met();
    for n in &met {
        node(question, waiting, *n, out)?;
    }
    for (k, emit) in waiting.reach.emits.iter().enumerate() {
        let from: Vec<&usize> = met.iter().filter(|n| waiting.signal(**n) == emit.signal).collect();
        if from.is_empty() {
            continue;
        }
        out.line(&format!("  e{} [label=\"{} emit {}\"];", k, emit.statement, question.signal(emit.statement)))?;
        for n in from {
            out.line(&format!("  t{} -> e{} [label=\"waits for\"];", n, k))?;
        }
        for (how, to) in emit.waits() {
            out.line(&format!("  e{} -> t{} [label=\"{}\"];", k, to, stands(how)))?;
        }
    }
    out.line("}")?;
    Ok(Status::Good)
}

/// A test as a box; the named one has a second line round it.
fn node(question: &Question, waiting: &Waiting, n: usize, out: &mut Out) -> Outcome<()> {
    let statement = waiting.reach.tests[n].statement;
    let (kind, signal) = (question.statements[statement].kind.name, question.signal(statement));
    let heard = if waiting.is_input(waiting.signal(n)) { "\\nnot heard" } else { "" };
    let style = match (n == waiting.named, heard.is_empty()) {
        (true, true) => ", peripheries=2",
        (true, false) => ", peripheries=2, style=bold",
        (false, false) => ", style=bold",
        (false, true) => "",
    };
    out.line(&format!("  t{} [shape=box, label=\"{} {} {}{}\"{}];", n, statement, kind, signal, heard, style))
}

fn stands(stands: Stands) -> &'static str {
    match stands {
        Stands::Under => "stands under",
        Stands::After => "comes after",
        Stands::Again => "comes after, in the next turn",
    }
}
