//! The answer for people: what is so, whether the two carry one version number, and where they are not alike the run as a table with both side by side.

use super::search::{Found, Step, PAIRS};
use super::{Pair, To, SIDES};
use crate::block::{counts, Block};
use crate::files;
use crate::labels::Labels;
use crate::output::Out;
use crate::refusal;
use crate::run::words::{code, width};
use crate::sets::{changed, sentence, Given, UNKNOWN};
use crate::status::Status;
use crate::table::{Column, Side, Table};
use crate::trouble::{Outcome, Trouble};
use crate::walk::{counted, grouped};
use crate::why::how_to_ask;
use foldheron::{Instant, Refusal};

/// A column of signals is at most so wide, so that the table has 80 columns; a longer list pushes what is to its right.
const WIDEST: usize = 16;

pub fn tell(pair: &Pair, found: &Found, to: Option<&To>, out: &mut Out) -> Outcome<()> {
    match found {
        Found::Refused(why) if why.number != 25 => return Err(turned_down(pair, *why)),
        _ => {}
    }
    out.line(&verdict(pair, found))?;
    for (side, block) in SIDES.iter().zip([&pair.old, &pair.new]) {
        out.line(&format!("  {}: {}: {}", side, files::shown(&block.path), counts(&block.summary, block.bytes.len())))?;
    }
    out.line(&format!("  {}", versions(pair, found)))?;
    if let Some(said) = two_names(pair) {
        out.line(&format!("  {}", said))?;
    }
    match found {
        Found::Alike => out.line(&format!("  {}", states(pair))),
        Found::SameBytes(why) => {
            out.line(&format!("  {}", states(pair)))?;
            out.line(&format!("  the library does not compare them ({}), and is not needed: what a block does is fixed by its bytes", refusal::title(why.number)))
        }
        Found::Different(steps) => table(pair, steps, out),
        Found::Refused(_) => out.line(&format!("  runs that show no difference lead to over {} pairs of states", grouped(PAIRS))),
    }?;
    match (to, found) {
        (Some(to), Found::Different(steps)) => {
            let call = format!("foldheron run {} --inputs {}", files::shown(&pair.old.path), files::shown(&to.path));
            let over = if to.before == 0 { String::new() } else { format!(" in the place of {} that were there", to.before) };
            out.line(&format!("{}: {}{}, for {}", files::shown(&to.path), counted(steps.len() as u64, "set"), over, call))
        }
        (Some(to), _) => out.line(&format!("{}: nothing is written, for there is no run to write", files::shown(&to.path))),
        (None, _) => Ok(()),
    }
}

/// What is said where the two names files call one signal by two names.
pub fn two_names(pair: &Pair) -> Option<String> {
    let said = || format!("two names for one signal: {}; a panel that is wired by names gets other signals", super::in_words(&pair.renamed));
    (!pair.renamed.is_empty()).then(said)
}

/// The answer in a line.
pub fn verdict(pair: &Pair, found: &Found) -> String {
    match found {
        _ if pair.has_same_bytes() => "alike: the two files have the same bytes".to_string(),
        Found::Alike | Found::SameBytes(_) => "alike: from fresh, with every input heard, no run of inputs tells the two apart".to_string(),
        Found::Different(steps) => format!("different: a shortest run of inputs that tells the two apart has {}", counted(steps.len() as u64, "instant")),
        Found::Refused(why) => format!("cannot be told: refused with {}", refusal::title(why.number)),
    }
}

/// What the answer says of the numbers that the two carry.
pub fn versions(pair: &Pair, found: &Found) -> String {
    let [old, new] = [pair.old.summary.version, pair.new.summary.version];
    let numbers = if old == new { format!("one version number, {}", old) } else { format!("two version numbers, {} and {}", old, new) };
    match found {
        Found::Alike | Found::SameBytes(_) => format!("{}, and one behaviour", numbers),
        Found::Different(_) if old == new => format!("{}, and two behaviours: the new block wants a number of its own", numbers),
        Found::Different(_) => format!("{}, and two behaviours", numbers),
        Found::Refused(_) if old == new => format!("{}: {}", numbers, refusal::advice(25)),
        Found::Refused(_) => numbers,
    }
}

/// What becomes of a saved state, of which alike says nothing.
fn states(pair: &Pair) -> &'static str {
    let key = |block: &Block| (block.summary.version, block.summary.statements);
    if pair.has_same_bytes() {
        "a state of one is a state of the other"
    } else if key(&pair.old) == key(&pair.new) {
        "of saved states this says nothing: each takes the other's, and may go on otherwise from it; start afresh after the change"
    } else {
        "of saved states this says nothing: each refuses the other's with 17; start afresh after the change"
    }
}

pub fn turned_down(pair: &Pair, why: Refusal) -> Trouble {
    let has = |block: &Block| format!("{} and {}", counted(block.summary.inputs.into(), "input"), counted(block.summary.outputs.into(), "output"));
    let wrong = match why.number {
        23 => format!("the old block has {}, the new one {}", has(&pair.old), has(&pair.new)),
        24 => format!("they have {}, and 6 are the most", counted(pair.old.summary.inputs.into(), "input")),
        other => refusal::meaning(other),
    };
    Trouble::new(Status::of(why.number), format!("refused with {}: {}", refusal::title(why.number), wrong)).advise(refusal::advice(why.number))
}

/// The columns, as run has them but for pauses and rounds, which are not compared.
fn columns(labels: &Labels) -> Table {
    let left = |title, width| Column { title, width, side: Side::Left };
    let outputs = width(labels, labels.outputs(), 7, WIDEST);
    Table::new(vec![
        Column { title: "instant", width: 7, side: Side::Right },
        left("inputs", width(labels, labels.inputs(), 7, WIDEST)),
        left(SIDES[0], outputs),
        left("code", 7),
        left(SIDES[1], outputs),
        left("code", 7),
    ])
}

fn table(pair: &Pair, steps: &[Step], out: &mut Out) -> Outcome<()> {
    let (labels, table) = (&pair.labels, columns(&pair.labels));
    let (mut inputs, mut outputs) = (0, [0; 2]);
    out.line(&table.head())?;
    for (n, step) in steps.iter().enumerate() {
        let mut cells = vec![(n + 1).to_string(), changed(step.inputs, Some(inputs), |n| labels.input(n))];
        inputs = step.inputs;
        for (answer, before) in step.answers.iter().zip(&mut outputs) {
            match answer {
                Instant::Answered(reaction) => {
                    cells.extend([changed(reaction.present, Some(*before), |n| labels.output(n)), code(reaction.code)]);
                    *before = reaction.present;
                }
                other => cells.extend([UNKNOWN.to_string(), other.number().to_string()]),
            }
        }
        let row = table.row(&cells.iter().map(String::as_str).collect::<Vec<_>>());
        out.line(&format!("{}{}", row, if step.differs() { "  <-" } else { "" }))?;
    }
    let last = &steps[steps.len() - 1];
    out.line(&format!("<- instant {}: {}", steps.len(), difference(last, labels)))?;
    why(pair, steps, out)?;
    out.line("+ came, - went, x no outputs (13)")
}

/// In what the two differ in an instant.
pub fn difference(step: &Step, labels: &Labels) -> String {
    let [old, new] = match &step.answers {
        [Instant::Answered(old), Instant::Answered(new)] => [old, new],
        [Instant::Answered(_), refused] => return format!("old is answered, and new is refused with {}", refusal::title(refused.number())),
        [refused, _] => return format!("old is refused with {}, and new is answered", refusal::title(refused.number())),
    };
    let mut parts = Vec::new();
    for (side, more) in SIDES.iter().zip([old.present & !new.present, new.present & !old.present]) {
        if more != 0 {
            parts.push(format!("{} alone has {}", side, sentence(more, |n| labels.output(n))));
        }
    }
    if old.code != new.code {
        parts.push(format!("old has code {}, and new code {}", old.code, new.code));
    }
    parts.join("; ")
}

/// Of a 13 of one alone, how it is asked about.
fn why(pair: &Pair, steps: &[Step], out: &mut Out) -> Outcome<()> {
    let sets: Vec<Given> = steps.iter().map(|step| Given::heard(step.inputs)).collect();
    for (block, answer) in [&pair.old, &pair.new].iter().zip(&steps[steps.len() - 1].answers) {
        if answer.number() == 13 {
            out.line(&how_to_ask(steps.len() as u64, &block.path, Some(&sets), &block.labels))?;
        }
    }
    Ok(())
}
