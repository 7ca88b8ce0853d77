//! What is so: where a question is refused with 16 what is so instead, and why a part was not executed.

use super::meaning::{Meaning, Run, Status};
use super::reach::Visit;
use super::words::{inputs, refused_before};
use super::Question;
use crate::labels::Sort;
use crate::refusal;
use crate::run::words::code;
use crate::sets::{listed, sentence};
use crate::status;
use crate::trouble::Trouble;
use crate::walk::counted;
use foldheron::{Asked, Instant};

/// A refused question, in words.
pub fn instead(question: &Question, number: u16) -> Trouble {
    let head = format!("instant {}, inputs {}: refused with {}", question.number, inputs(question), refusal::title(number));
    let mut trouble = Trouble::new(status::Status::of(number), format!("{}: {}", head, is_so(question, number)));
    trouble.lines.extend(refused_before(question));
    match (number, question.asked, &question.answer) {
        (16, Asked::Present(_) | Asked::NotExecuted(_), Instant::NotConstructive(_)) => trouble.advise("without --present and --not-executed it is told why"),
        (16, Asked::Refused, _) => trouble.advise("--present NAME asks why an output is present, --not-executed N why an emit was not executed"),
        (16, Asked::Present(n), _) => its_emits(question, n).into_iter().fold(trouble, Trouble::advise),
        (16, _, _) => trouble,
        _ => trouble.advise(refusal::advice(number)),
    }
}

/// Of an output that was absent, the emits that can be asked about.
fn its_emits(question: &Question, signal: usize) -> Option<String> {
    let is_output = question.labels().sort(signal) == Some(Sort::Output);
    let emits = question.statements.iter().filter(|s| s.kind.name == "emit" && s.operand.map(usize::from) == Some(signal));
    let numbers: Vec<String> = emits.map(|s| s.number.to_string()).collect();
    match numbers.as_slice() {
        _ if !is_output => None,
        [] => Some("the block has no emit of it".to_string()),
        [one] => Some(format!("its emit is statement {}: --not-executed {} says why it was not executed", one, one)),
        [first, ..] => Some(format!("its emits are statements {}: --not-executed {} says why the first was not executed", listed(&numbers), first)),
    }
}

/// What is so instead of what was asked.
pub fn is_so(question: &Question, number: u16) -> String {
    let labels = question.labels();
    if number == 11 {
        return format!("the block has no input {}", sentence(question.given.present & !labels.all_inputs(), |n| labels.input(n)));
    }
    if number != 16 {
        return refusal::meaning(number);
    }
    match (question.asked, &question.answer) {
        (Asked::Refused, Instant::Answered(r)) => {
            let present = if r.present == 0 { "no output".to_string() } else { sentence(r.present, |n| labels.output(n)) };
            format!("the instant was answered, with {} present and code {}", present, code(r.code))
        }
        (Asked::Present(n), _) if labels.sort(n) == Some(Sort::Input) => format!("{} is an input, and no output", labels.signal(n)),
        (Asked::Present(n), _) if labels.sort(n) == Some(Sort::Local) => format!("{} is a local, and no output", labels.signal(n)),
        (Asked::NotExecuted(n), _) if n >= question.statements.len() => {
            format!("there is no statement {}: the block has {}", n, counted(question.statements.len() as u64, "statement"))
        }
        (Asked::NotExecuted(n), _) if question.statements[n].kind.name != "emit" => format!("statement {} is no emit but {}", n, kind(question, n)),
        (_, Instant::NotConstructive(_)) => format!("the instant was refused with {}: it has no outputs, and nothing was executed", refusal::title(13)),
        (Asked::Present(n), _) => format!("{} was absent in this instant", labels.signal(n)),
        (Asked::NotExecuted(n), _) => format!("statement {}, emit {}, was executed", n, question.signal(n)),
        (Asked::Refused, _) => refusal::meaning(number),
    }
}

/// A statement's kind with its article.
fn kind(question: &Question, n: usize) -> String {
    match question.statements[n].kind.name {
        "nothing" => "nothing".to_string(),
        "exit" => "an exit".to_string(),
        name => format!("a {}", name),
    }
}

/// Why a run of a statement did not execute one of its parts.
pub fn kept_from(question: &Question, meaning: &Meaning, visit: &Visit, part: usize) -> String {
    let (above, run) = visit.part;
    let node = &meaning.nodes[above];
    let name = question.signal(above);
    match (node.name, run) {
        ("present", Run::Started) => {
            let status = if visit.event.status(node.operand) == Status::Present { "present" } else { "absent" };
            format!("statement {} tests {}, which is {}", above, name, status)
        }
        ("present", Run::Resumed) => format!("statement {} goes on in its other branch", above),
        ("suspend", _) => format!("statement {} holds it, for {} is present", above, name),
        ("parallel", _) => format!("this arm of statement {} had ended before", above),
        ("sequence", _) if node.parts[0] == part => format!("statement {} goes on in its second part, statement {}", above, node.parts[1]),
        ("sequence", _) => {
            let ends = match meaning.code(meaning.stages(visit.part).0, visit.event) {
                Some(1) => "waits for the next instant",
                Some(_) => "left by an exit",
                None => "is undecided",
            };
            format!("statement {}, which comes before it, {}", node.parts[0], ends)
        }
        _ => format!("statement {} was executed without it", above),
    }
}
