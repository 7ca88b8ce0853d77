//! foldheron why: why an instant was refused with 13, an output is present, or an emit was not executed. Which statement is named is the library's to say;
//! what a 13 waits for is followed here, over the block's tree.

mod dot;
mod meaning;
mod object;
mod picture;
mod reach;
mod route;
mod so;
mod words;

use crate::args::{flag, with, Words};
use crate::block::{self, Block};
use crate::commands::Command;
use crate::files;
use crate::labels::Labels;
use crate::layout::State;
use crate::names;
use crate::output::Out;
use crate::run::keep;
use crate::sets::{self, Given};
use crate::status::Status;
use crate::trouble::{Outcome, Trouble};
use crate::walk::{grouped, walk, Statement};
use foldheron::{reason, Asked, Instant, Reason};
use meaning::{Event, Meaning, Run};
use reach::Reach;
use route::Waiting;
use std::path::Path;

pub static COMMAND: Command = Command {
    name: "why",
    does: "names the statement that made an instant what it was",
    call: "FILE --in SETS [--from STATE] [--present NAME | --not-executed N] [--dot | --svg | --json]\n              [--names FILE | --no-names]",
    options: &[
        with("--in", "SETS", "the sets of inputs in words, as run takes them; asked about is the instant of the last, after those before it"),
        with("--from", "STATE", "the state in STATE comes before the first of them; without it the block begins afresh"),
        with("--present", "NAME", "why this output is present"),
        with("--not-executed", "N", "why the emit that is statement N was not executed"),
        flag("--dot", "what a 13 waits for, as a graph for the program dot"),
        flag("--svg", "the way round, or the chain to an input that is not heard, as a picture"),
        flag("--json", "an object"),
        names::OPTION,
        names::NO_OPTION,
    ],
    more: MORE,
    run,
};

const MORE: &str = "Without --present and --not-executed: why the instant is refused with 13. Named is the lowest test that is reached with its signal
undecided. Of a present output it is the lowest emit of it that was executed, and of an emit that was not executed the topmost
statement on the way to it that was not. That is the library's answer, and proved. Nothing is written.

Besides, of a 13: what the named test waits for. Its signal is undecided because some emit of it may still be executed, and that emit
waits for every undecided test that it stands under, or comes after in a sequence, or in a loop's next turn; and so on, round to the
named test or to an input that is not heard. A test that is not reached yet, for another stands above it, is marked so. That is followed in the block by this program: it is tested, and not proved.

Where the thing asked about is not so it is refused with 16, and what is so is told. Status 0 means that the question was answered.
";

/// Sets that fit on a line of advice.
pub const FEW: usize = 8;

/// How to ask why an instant was refused with 13: with the sets up to it from fresh, where they are known and few.
pub fn how_to_ask(instant: u64, path: &Path, sets: Option<&[Given]>, labels: &Labels) -> String {
    let call = format!("why instant {} is refused: foldheron why {} --in", grouped(instant), files::printable(&path.to_string_lossy()));
    match sets.filter(|sets| sets.len() <= FEW) {
        Some(sets) => format!("{} \"{}\"", call, sets::in_words(sets, labels)),
        None => format!("{} SETS, with the sets up to it, or --from the state before it", call),
    }
}

/// An instant that is asked about: the state in which it begins, its inputs, what it came to, and the question.
pub struct Question {
    block: Block,
    statements: Vec<Statement>,
    state: Vec<u8>,
    /// Its number among the sets that were given.
    number: usize,
    given: Given,
    answer: Instant,
    asked: Asked,
    /// Those before it that were refused, by their numbers: the state is as if they had not been.
    refused: Vec<usize>,
}

fn run(words: &Words, out: &mut Out) -> Outcome<Status> {
    let [word] = words.exactly(["the block's file"])?;
    let form = words.at_most_one(&["--dot", "--svg", "--json"])?;
    words.at_most_one(&["--present", "--not-executed"])?;
    let text = words.value("--in").ok_or_else(|| Trouble::call("--in is missing: the inputs of the instant, or of several, the last of which is asked about"))?;
    let from = words.value("--from").map(Path::new);
    if word == files::STDIN && from == Some(Path::new(files::STDIN)) {
        return Err(Trouble::call("only one file can be - , standard input"));
    }
    let block = match block::load_or_tell(words, word, out)? {
        Some(block) => block,
        None => return Ok(Status::BlockRefused),
    };
    let asked = asked(words, &block.labels)?;
    if let (Some(drawn @ ("--dot" | "--svg")), true) = (form, asked != Asked::Refused) {
        return Err(Trouble::call(format!("{} draws what a 13 waits for: it does not go together with --present or --not-executed", drawn)));
    }
    let sets = sets::parse(&text.to_string_lossy(), &block.labels)?;
    let state = match keep::begins(from, &block)? {
        Ok(state) => state,
        Err(down) => return keep::not_taken(from.unwrap_or_else(|| Path::new("")), &down, form == Some("--json"), out),
    };
    let question = Question::of(block, state, &sets, asked);
    match (question.reason(), form) {
        (Reason::Statement(n), form) => question.tell(n, form, out),
        (refused, Some("--json")) => object::refused(&question, refused.number(), out),
        (refused, _) => Err(so::instead(&question, refused.number())),
    }
}

/// What is told of a 13 besides its lines: what waits for what as a picture for a page, and what to do; neither where it could not be followed.
#[derive(Default)]
pub struct Explained {
    pub picture: Option<String>,
    pub advice: Option<&'static str>,
}

/// Why an instant that began in this state is refused with 13, in lines.
pub fn explained(block: &Block, state: &[u8], number: u64, given: Given, out: &mut Out) -> Outcome<Explained> {
    let mut question = Question::of(block.clone(), state.to_vec(), &[given], Asked::Refused);
    question.number = number as usize;
    let named = match question.reason() {
        Reason::Statement(n) => n,
        _ => return Ok(Explained::default()),
    };
    let meaning = question.meaning();
    let reach = question.reach(&meaning);
    let waiting = Waiting::of(&reach, named, question.block.summary.inputs);
    words::told(&question, named, &reach, waiting.as_ref(), out)?;
    let advice = waiting.as_ref().and_then(words::advice);
    Ok(Explained { picture: waiting.map(|waiting| picture::element(&question, &waiting)), advice })
}

/// What is asked about.
fn asked(words: &Words, labels: &Labels) -> Outcome<Asked> {
    if let Some(name) = words.value("--present") {
        let name = name.to_string_lossy();
        let outputs = sets::sentence(labels.all_outputs(), |n| labels.with_number(n));
        let unknown = || {
            let mut trouble = Trouble::call(format!("the block has no signal '{}'", files::printable(&name)));
            trouble.lines.extend(sets::near(&name, labels, labels.outputs()).map(|near| format!("is {} meant?", near)));
            trouble.advise(format!("the block's outputs: {}", outputs))
        };
        return labels.find(&name).map(Asked::Present).ok_or_else(unknown);
    }
    match words.value("--not-executed") {
        None => Ok(Asked::Refused),
        Some(number) => {
            let text = number.to_string_lossy();
            text.parse().map(Asked::NotExecuted).map_err(|_| Trouble::call(format!("'{}' is no statement's number", files::printable(&text))))
        }
    }
}

impl Question {
    /// Runs every set but the last, and the last one on a copy of the state.
    fn of(block: Block, mut state: Vec<u8>, sets: &[Given], asked: Asked) -> Question {
        let (given, before) = sets.split_last().map_or((Given::default(), sets), |(last, before)| (*last, before));
        let mut refused = Vec::new();
        for (n, set) in before.iter().enumerate() {
            if keep::one(&block, &mut state, *set).number() != 0 {
                refused.push(n + 1);
            }
        }
        let answer = keep::one(&block, &mut state.clone(), given);
        let statements = walk(&block.bytes, block.bytes.len()).statements;
        Question { block, statements, state, number: sets.len(), given, answer, asked, refused }
    }

    fn labels(&self) -> &Labels {
        &self.block.labels
    }

    fn reason(&self) -> Reason {
        reason(&self.block.bytes, &self.state, self.given.present, self.given.absent(self.labels().all_inputs()), self.asked)
    }

    /// The statuses with which the rounds of the instant end; locals have none here.
    fn event(&self) -> Event {
        let inputs = self.labels().all_inputs();
        let (present, absent) = match &self.answer {
            Instant::Answered(r) => (r.present, self.labels().all_outputs() & !r.present),
            Instant::NotConstructive(d) => (d.present, d.absent),
            _ => (0, 0),
        };
        Event { present: self.given.present | present, absent: self.given.absent(inputs) | absent }
    }

    fn meaning(&self) -> Meaning {
        Meaning::of(&self.statements, State::of(&self.state).map_or(0, |state| state.active))
    }

    fn reach<'a>(&self, meaning: &'a Meaning) -> Reach<'a> {
        let phase = State::of(&self.state).map_or(0, |state| state.phase);
        let run = [Run::Started, Run::Resumed].get(usize::from(phase)).copied();
        Reach::of(meaning, run, self.event())
    }

    fn tell(&self, n: usize, form: Option<&str>, out: &mut Out) -> Outcome<Status> {
        let meaning = self.meaning();
        let reach = self.reach(&meaning);
        let waiting = Waiting::of(&reach, n, self.block.summary.inputs).filter(|_| self.asked == Asked::Refused);
        match form {
            Some("--json") => object::told(self, n, waiting.as_ref(), out),
            Some("--svg") => picture::told(self, waiting.as_ref(), out),
            Some(_) => dot::told(self, waiting.as_ref(), out),
            None => {
                words::told(self, n, &reach, waiting.as_ref(), out)?;
                let advice = waiting.as_ref().and_then(words::advice);
                advice.map_or(Ok(()), |advice| out.line(&format!("what to do: {}", advice))).map(|_| Status::Good)
            }
        }
    }

    /// The statements from the root down to one.
    fn way(&self, n: usize) -> Vec<usize> {
        let mut way = vec![n];
        let mut level = self.statements[n].level;
        for above in self.statements[..n].iter().rev() {
            if above.level < level {
                level = above.level;
                way.push(above.number);
            }
        }
        way.reverse();
        way
    }

    /// A statement's signal as it is called.
    fn signal(&self, n: usize) -> String {
        self.statements[n].operand.map_or(String::new(), |signal| self.labels().signal(signal.into()))
    }
}
