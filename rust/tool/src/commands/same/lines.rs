//! The answer for programs: lines of numbers, comma-separated values, objects.

use super::search::Found;
use super::{Pair, SIDES};
use crate::block::Block;
use crate::hash::sha256;
use crate::json::Object;
use crate::labels::{members, Labels};
use crate::output::Out;
use crate::sets::UNKNOWN;
use crate::trouble::Outcome;
use foldheron::{name_of, Instant};

/// Refusal, code and outputs of an answer as numbers; a 13 has neither.
fn numbers(answer: &Instant) -> [u64; 3] {
    match answer {
        Instant::Answered(reaction) => [0, reaction.code.into(), reaction.present],
        other => [other.number().into(), 0, 0],
    }
}

fn joined(numbers: impl Iterator<Item = u64>, between: &str) -> String {
    numbers.map(|number| number.to_string()).collect::<Vec<_>>().join(between)
}

/// A line an instant of eight numbers; a refusal of the two is one line.
pub fn plain(found: &Found, out: &mut Out) -> Outcome<()> {
    match found {
        Found::Alike | Found::SameBytes(_) => Ok(()),
        Found::Refused(why) => out.line(&format!("refused {}", why.number)),
        Found::Different(steps) => steps.iter().enumerate().try_for_each(|(n, step)| {
            let answers = step.answers.iter().flat_map(numbers);
            out.line(&joined([n as u64 + 1, step.inputs].into_iter().chain(answers), " "))
        }),
    }
}

/// The columns before those of the signals.
const FIXED: &str = "instant,inputs,old_refusal,old_code,old_outputs,new_refusal,new_code,new_outputs,differs";

pub fn csv(pair: &Pair, found: &Found, out: &mut Out) -> Outcome<()> {
    let labels = &pair.labels;
    let named = |side: &str, n: usize| format!(",{}{}", side, labels.signal(n));
    let inputs: String = labels.inputs().map(|n| named("", n)).collect();
    let outputs: String = SIDES.iter().flat_map(|side| labels.outputs().map(move |n| named(&format!("{}_", side), n))).collect();
    let steps = match found {
        Found::Different(steps) => steps.as_slice(),
        Found::Refused(why) if why.number != 25 => return Err(super::words::turned_down(pair, *why)),
        _ => &[],
    };
    out.line(&format!("{}{}{}", FIXED, inputs, outputs))?;
    for (n, step) in steps.iter().enumerate() {
        let mut line = format!("{},{}", n + 1, step.inputs);
        for answer in &step.answers {
            match answer {
                Instant::Answered(_) => line.push_str(&format!(",{}", joined(numbers(answer).into_iter(), ","))),
                other => line.push_str(&format!(",{},x,x", other.number())),
            }
        }
        line.push_str(if step.differs() { ",1" } else { ",0" });
        labels.inputs().for_each(|n| line.push_str(if step.inputs >> n & 1 == 1 { ",1" } else { ",0" }));
        for answer in &step.answers {
            labels.outputs().for_each(|n| line.push_str(&format!(",{}", column(answer, n))));
        }
        out.line(&line)?;
    }
    Ok(())
}

/// Whether an output is present, x where that is not known.
fn column(answer: &Instant, n: usize) -> &'static str {
    match answer {
        Instant::Answered(reaction) if reaction.present >> n & 1 == 1 => "1",
        Instant::Answered(_) => "0",
        _ => UNKNOWN,
    }
}

pub fn json(pair: &Pair, found: &Found, out: &mut Out) -> Outcome<()> {
    let (labels, steps) = match found {
        Found::Different(steps) => (&pair.labels, steps.as_slice()),
        _ => (&pair.labels, &[][..]),
    };
    let names = |set: u64, name: fn(&Labels, usize) -> String| members(set).map(|n| name(labels, n)).collect::<Vec<_>>();
    for (n, step) in steps.iter().enumerate() {
        let mut object = Object::new().number("instant", n as u64 + 1).texts("inputs", &names(step.inputs, Labels::input));
        for (side, answer) in SIDES.iter().zip(&step.answers) {
            let key = |what: &str| format!("{}_{}", side, what);
            object = object.number(&key("refusal"), answer.number());
            object = match answer {
                Instant::Answered(r) => object.number(&key("code"), r.code).texts(&key("outputs"), &names(r.present, Labels::output)),
                _ => object.null(&key("code")).null(&key("outputs")),
            };
        }
        out.line(&object.flag("differs", step.differs()).done())?;
    }
    out.line(&answer(pair, found).done())
}

/// The last object: alike is null where it cannot be told; renamed are the signals with two names.
fn answer(pair: &Pair, found: &Found) -> Object {
    let object = match found {
        Found::Alike | Found::SameBytes(_) => Object::new().flag("alike", true).number("refusal", 0u64).number("instants", 0u64),
        Found::Different(steps) => Object::new().flag("alike", false).number("refusal", 0u64).number("instants", steps.len() as u64),
        Found::Refused(why) => Object::new().null("alike").number("refusal", why.number).text("name", name_of(why.number).unwrap_or("")),
    };
    let about = |object: Object, side: &str, block: &Block| {
        let key = |what: &str| format!("{}_{}", side, what);
        object.text(&key("file"), &block.path.to_string_lossy()).number(&key("version"), block.summary.version).text(&key("sha256"), &sha256(&block.bytes))
    };
    let object = object.flag("one_version", pair.old.summary.version == pair.new.summary.version).flag("same_bytes", pair.has_same_bytes());
    let renamed = pair.renamed.iter().map(|two| Object::new().number("signal", two.signal as u64).text(SIDES[0], &two.old).text(SIDES[1], &two.new));
    about(about(object, SIDES[0], &pair.old), SIDES[1], &pair.new).objects("renamed", renamed.collect())
}
