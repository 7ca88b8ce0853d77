//! The answer for a person: the named statement with the way to it and all below it, and what it waits for.

use super::meaning::{Run, Status};
use super::reach::{Reach, Stands, Test};
use super::route::{Arrow, Waiting};
use super::{so, Question};
use crate::output::Out;
use crate::refusal;
use crate::sets::{changed_inputs, listed};
use crate::tree;
use crate::trouble::Outcome;
use crate::walk::Statement;
use foldheron::Asked;
use std::collections::BTreeSet;

pub fn told(question: &Question, n: usize, reach: &Reach, waiting: Option<&Waiting>, out: &mut Out) -> Outcome<()> {
    let (what, named) = match question.asked {
        Asked::Refused => (format!("refused with {}", refusal::title(13)), "the lowest test that is reached with its signal undecided".to_string()),
        Asked::Present(signal) => (format!("answered, and {} is present", question.labels().signal(signal)), "the lowest emit of it that was executed".to_string()),
        Asked::NotExecuted(emit) => (
            format!("answered, and statement {}, emit {}, was not executed", emit, question.signal(emit)),
            format!("the topmost on the way to it that was not executed: {}", because(question, reach, n)),
        ),
    };
    out.line(&format!("instant {}, inputs {}: {}", question.number, inputs(question), what))?;
    if let Some(line) = refused_before(question) {
        out.line(&line)?;
    }
    let line = question.labels().line(n).map_or(String::new(), |line| format!(", on line {} of the text,", line));
    out.line(&format!("statement {}{} is {}", n, line, named))?;
    out.line(&tree::head(question.labels()))?;
    let spoken_of = waiting.map_or(Vec::new(), spoken_of);
    for row in shown(question, n, &spoken_of, reach) {
        out.line(&row)?;
    }
    match waiting {
        Some(waiting) => waits(question, waiting, out)?,
        None if question.asked == Asked::Refused => out.line("what it waits for could not be followed")?,
        None => {}
    }
    Ok(())
}

/// Which instants before the one asked about were refused.
pub fn refused_before(question: &Question) -> Option<String> {
    let numbers: Vec<String> = question.refused.iter().map(usize::to_string).collect();
    match numbers.len() {
        0 => None,
        1 => Some(format!("instant {} before it was refused and changed nothing", numbers[0])),
        2..=8 => Some(format!("instants {} before it were refused and changed nothing", listed(&numbers))),
        n => Some(format!("{} instants before it were refused and changed nothing", n)),
    }
}

/// The inputs of the instant, as a run has them.
pub fn inputs(question: &Question) -> String {
    changed_inputs(question.given, None, |n| question.labels().input(n))
}

/// The tests and the emits of the ways that are told.
fn spoken_of(waiting: &Waiting) -> Vec<usize> {
    let test = |n: usize| waiting.reach.tests[n].statement;
    let ways = waiting.cycle().into_iter().chain(waiting.chain()).flatten();
    ways.flat_map(|arrow| vec![test(arrow.from), arrow.emit, test(arrow.to)]).collect()
}

/// The way to a statement, all below it, and what else is spoken of with the way to it, as a tree.
fn shown(question: &Question, n: usize, spoken_of: &[usize], reach: &Reach) -> Vec<String> {
    let way: Vec<usize> = spoken_of.iter().flat_map(|m| question.way(*m)).chain(question.way(n)).collect();
    let level = question.statements[n].level;
    let below = question.statements[n + 1..].iter().take_while(|s| s.level > level).map(|s| s.number);
    let numbers: BTreeSet<usize> = way.iter().copied().chain(below).collect();
    let rows: Vec<Statement> = numbers.iter().map(|m| question.statements[*m].clone()).collect();
    tree::rows(&rows, question.labels(), |s| mark(question, s, n, &way, reach))
}

/// What is said behind a statement on the way or spoken of: what its tests found, and which one is named.
fn mark(question: &Question, s: &Statement, named: usize, way: &[usize], reach: &Reach) -> Option<String> {
    let is_asked = question.asked == Asked::NotExecuted(s.number);
    let words = match question.asked {
        Asked::NotExecuted(_) if s.number == named => "not executed".to_string(),
        Asked::Present(_) if s.number == named => "executed".to_string(),
        _ if is_asked => "asked about".to_string(),
        _ if way.contains(&s.number) => tested(question, s, reach)?,
        _ => return None,
    };
    Some(format!("<- {}", words))
}

/// What a test on the way found, in each of its runs.
fn tested(question: &Question, s: &Statement, reach: &Reach) -> Option<String> {
    let is_present = s.kind.name == "present";
    if !is_present && s.kind.name != "suspend" {
        return None;
    }
    let signal = s.operand.unwrap_or(0);
    let found = reach.visits.iter().filter(|visit| visit.part.0 == s.number).filter_map(|visit| match (is_present, visit.part.1) {
        (true, Run::Resumed) => Some("resumed"),
        (false, Run::Started) => None,
        _ => Some(in_words(question, signal, visit.event.status(signal))),
    });
    let mut all: Vec<&str> = found.collect();
    all.dedup();
    Some(all.join(", then ")).filter(|words| !words.is_empty())
}

fn in_words(question: &Question, signal: u16, status: Status) -> &'static str {
    match status {
        Status::Present => "present",
        Status::Absent => "absent",
        Status::Unknown if usize::from(signal) < question.labels().inputs().len() => "not heard",
        Status::Unknown => "undecided",
    }
}

/// Why the parts above a statement were executed and it was not.
fn because(question: &Question, reach: &Reach, n: usize) -> String {
    let above = match question.way(n).iter().rev().nth(1).copied() {
        Some(above) => above,
        None => return "the block had ended before".to_string(),
    };
    let visits = reach.visits.iter().filter(|visit| visit.part.0 == above);
    let mut all: Vec<String> = visits.map(|visit| so::kept_from(question, reach.meaning, visit, n)).collect();
    all.dedup();
    all.join("; and when it is started again, ")
}

/// The way round, or the chain to an input.
fn waits(question: &Question, waiting: &Waiting, out: &mut Out) -> Outcome<()> {
    let (cycle, chain) = (waiting.cycle(), waiting.chain());
    let found = "followed in the block, not proved";
    if let Some((way, title)) = cycle.as_ref().zip(title(question, waiting, cycle.as_deref())) {
        out.line(&format!("how {} ({}):", title, found))?;
        arrows(question, waiting, way, out)?;
    }
    if let Some(way) = &chain {
        let also = if cycle.is_some() { "also " } else { "" };
        out.line(&format!("how it {}waits for an input that is not heard ({}):", also, found))?;
        arrows(question, waiting, way, out)?;
        let last = way.last().map_or(waiting.named, |arrow| arrow.to);
        let test = waiting.reach.tests[last].statement;
        out.line(&format!("  {} tests {}, which is not heard", test, question.signal(test)))?;
    }
    others(question, waiting, out)?;
    match (&cycle, &chain) {
        (None, None) => out.line("what it waits for could not be followed"),
        _ => Ok(()),
    }
}

/// What to do about a 13: where an input that is not heard may settle it, not yet what a cycle asks for.
pub fn advice(waiting: &Waiting) -> Option<&'static str> {
    match (waiting.cycle(), waiting.chain()) {
        (None, None) => None,
        (Some(_), None) => Some(refusal::advice(13)),
        _ => Some("run it again when more is heard; foldheron run --waits tries which input would settle it"),
    }
}

/// What the way round says of the named test's signal.
pub fn title(question: &Question, waiting: &Waiting, cycle: Option<&[Arrow]>) -> Option<String> {
    let name = question.signal(waiting.reach.tests[waiting.named].statement);
    let is_round = cycle?.last().map_or(false, |last| last.to == waiting.named);
    Some(if is_round { format!("{} waits for itself", name) } else { format!("{} waits for what waits for itself", name) })
}

/// The undecided tests that the named one does not wait for, a few of them.
fn others(question: &Question, waiting: &Waiting, out: &mut Out) -> Outcome<()> {
    let met = waiting.met();
    let tests = &waiting.reach.tests;
    let mut more: Vec<usize> = (0..tests.len()).filter(|n| tests[*n].is_reached && !met.contains(n)).map(|n| tests[n].statement).collect();
    more.dedup();
    let words: Vec<String> = more.iter().take(4).map(|test| format!("{} of {}", test, question.signal(*test))).collect();
    match more.len() {
        0 => Ok(()),
        1..=4 => out.line(&format!("other tests that are reached undecided: {}", listed(&words))),
        n => out.line(&format!("other tests that are reached undecided: {}, and {} more", words.join(", "), n - 4)),
    }
}

fn arrows(question: &Question, waiting: &Waiting, way: &[Arrow], out: &mut Out) -> Outcome<()> {
    for arrow in way {
        let tests = &waiting.reach.tests;
        let (from, to) = (tests[arrow.from].statement, tests[arrow.to].statement);
        let mut others: Vec<usize> = waiting.emits(waiting.signal(arrow.from)).map(|emit| emit.statement).filter(|emit| *emit != arrow.emit).collect();
        others.sort_unstable();
        others.dedup();
        let which = format!("emit {}{}", arrow.emit, or(&others));
        let behind = format!("{} {}, which tests {}{}", arrow.emit, stands(arrow.stands, to), question.signal(to), only_then(&tests[arrow.to]));
        out.line(&format!("  {} tests {}: {} may still come, and {}", from, question.signal(from), which, behind))?;
    }
    Ok(())
}

/// What is said of a test that is not reached for sure.
fn only_then(test: &Test) -> &'static str {
    match (test.is_reached, test.is_known) {
        (true, _) => "",
        (false, true) => " (not reached yet)",
        (false, false) => " (not reached yet, and whether this local is settled once it is reached cannot be told)",
    }
}

/// The other emits that may come, a few of them.
fn or(others: &[usize]) -> String {
    let words: Vec<String> = others.iter().map(usize::to_string).collect();
    match words.len() {
        0 => String::new(),
        1..=4 => format!(" (or {})", listed(&words).replace(" and ", " or ")),
        n => format!(" (or one of {} more)", n),
    }
}

/// How an emit stands to a test.
fn stands(stands: Stands, test: usize) -> String {
    match stands {
        Stands::Under => format!("stands under {}", test),
        Stands::After => format!("comes after {}", test),
        Stands::Again => format!("comes in the loop's next turn after {}", test),
    }
}
