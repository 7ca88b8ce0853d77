//! The answer for a program: one object.

use super::route::{Arrow, Waiting};
use super::reach::Stands;
use super::{so, Question};
use crate::json::Object;
use crate::labels::members;
use crate::output::Out;
use crate::status::Status;
use crate::trouble::Outcome;
use foldheron::{name_of, Asked};
use std::collections::BTreeSet;

/// The instant and the question.
fn begun(question: &Question) -> Object {
    let names = |set: u64| members(set).map(|n| question.labels().input(n)).collect::<Vec<_>>();
    let object = Object::new().number("instant", question.number as u64).texts("inputs", &names(question.given.present));
    let object = if question.given.unheard == 0 { object } else { object.texts("unheard", &names(question.given.unheard)) };
    let object = if question.refused.is_empty() { object } else { object.numbers("refused_before", &question.refused) };
    match question.asked {
        Asked::Refused => object.text("asked", "refused"),
        Asked::Present(n) => object.text("asked", "present").text("about", &question.labels().signal(n)),
        Asked::NotExecuted(n) => object.text("asked", "not executed").number("about", n as u64),
    }
}

/// A refused question, with what is so instead.
pub fn refused(question: &Question, number: u16, out: &mut Out) -> Outcome<Status> {
    let object = begun(question).number("refusal", number).text("name", name_of(number).unwrap_or("")).text("wrong", &so::is_so(question, number));
    out.line(&object.done())?;
    Ok(Status::of(number))
}

pub fn told(question: &Question, n: usize, waiting: Option<&Waiting>, out: &mut Out) -> Outcome<Status> {
    let object = begun(question).number("refusal", 0u64).number("statement", n as u64).numbers("path", &question.way(n));
    let object = match waiting {
        Some(waiting) => waits(question, waiting, object),
        None => object,
    };
    out.line(&object.done())?;
    Ok(Status::Good)
}

/// The tests that are waited for, the emits that may still come with the tests that they wait for, and the ways by the tests on them. An emit stands
/// there once for each way in which it stands to tests; what is met in two runs of a loop's body stands there once.
fn waits(question: &Question, waiting: &Waiting, object: Object) -> Object {
    let test = |n: usize| waiting.reach.tests[n].statement;
    let way = |way: Option<Vec<Arrow>>| way.map_or(Vec::new(), |way| std::iter::once(test(waiting.named)).chain(way.iter().map(|arrow| test(arrow.to))).collect());
    let met = waiting.met();
    let emits = waiting.reach.emits.iter().filter(|emit| met.iter().any(|n| waiting.signal(*n) == emit.signal));
    let emits = once(emits.flat_map(|emit| {
        let ways = once(emit.waits().map(|(stands, _)| stands)).into_iter();
        ways.map(move |stands| (emit.statement, stands, once(emit.waits().filter(|(how, _)| *how == stands).map(|(_, n)| test(n)))))
    }));
    let about = |n: usize| Object::new().number("statement", n as u64).text("signal", &question.signal(n));
    let tests = once(met.iter().map(|n| test(*n))).into_iter().map(|statement| {
        let runs = || met.iter().map(|n| &waiting.reach.tests[*n]).filter(|test| test.statement == statement);
        let object = about(statement);
        let object = if runs().any(|test| test.is_reached) { object } else { object.flag("reached", false) };
        if runs().any(|test| test.is_known) { object } else { object.flag("known", false) }
    });
    let emits = emits.iter().map(|(n, how, waits)| about(*n).text("stands", stands(*how)).numbers("waits", waits));
    let object = object.objects("tests", tests.collect()).objects("emits", emits.collect());
    object.numbers("cycle", &way(waiting.cycle())).numbers("chain", &way(waiting.chain()))
}

/// All of these in their order, each once.
fn once<T: Ord>(all: impl Iterator<Item = T>) -> Vec<T> {
    all.collect::<BTreeSet<T>>().into_iter().collect()
}

fn stands(stands: Stands) -> &'static str {
    match stands {
        Stands::Under => "under",
        Stands::After => "after",
        Stands::Again => "again",
    }
}
