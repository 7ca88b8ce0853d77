//! foldheron log: the records of a log in words.

use super::Command;
use crate::args::{flag, with, Words};
use crate::block;
use crate::files;
use crate::json::Object;
use crate::labels::{members, Labels};
use crate::layout::{two, LogRecord, OLD_RECORD, RECORD};
use crate::log::{cannot_be, no_log, no_record, other_file, Next, Records};
use crate::names;
use crate::output::Out;
use crate::run::words::{code, columns};
use crate::sets::{changed, changed_inputs, Given};
use crate::status::Status;
use crate::table::Table;
use crate::trouble::{Outcome, Trouble};
use crate::walk::{counted, grouped};
use std::io::BufReader;
use std::path::Path;

pub static COMMAND: Command = Command {
    name: "log",
    does: "prints the records of a log",
    call: "[--block FILE [--names FILE | --no-names]] [--json] FILE",
    options: &[
        with("--block", "FILE", "the block whose log it is, for the names of its signals"),
        flag("--json", "an object for each record, on a line of its own"),
        names::OPTION,
        names::NO_OPTION,
    ],
    more: "A log has a record for each answered instant and none for a refused one, so its records are numbered by themselves. What\n\
           changed since the record before is marked: + came, - went. In the first record what was before is not known, and nothing\n\
           is marked. ? marks an input that was not heard: with --block any, else those below the highest input that is told of in\n\
           the record or in one before it, for a log does not say how many inputs there are. Records of 24 bytes, from before version\n\
           2.0.0, are read too: in them every input is heard.\n\
           \n\
           A log does not name its block: whose it is, is yours to say. With --block, a record that cannot be the block's (signals that\n\
           the block does not have so, an input present and absent, a code above 1) is shown without names, and the command ends\n\
           with 8. A record that passes may be another block's even so.\n",
    run,
};

fn run(words: &Words, out: &mut Out) -> Outcome<Status> {
    let [word] = words.exactly(["a log's file"])?;
    let labels = match words.value("--block").map(|file| block::load_or_tell(words, file, out)).transpose()? {
        Some(Some(block)) => block.labels,
        Some(None) => return Ok(Status::BlockRefused),
        None => Labels::default(),
    };
    let path = Path::new(word);
    let mut records = Records::new(BufReader::new(files::open(path).map_err(|why| files::unread(path, &why))?), path);
    let mut printer = Printer { labels: &labels, json: words.has("--json"), table: Table::new(columns(&labels, "record", false)), before: None, told: 0, foreign: None, begun: false };
    loop {
        match records.next()? {
            Next::End => return printer.end(path, records.number, out),
            Next::Short(bytes) => return Err(short(path, records.number, &bytes)),
            Next::Strange(bytes) => return Err(no_record(path, records.number + 1, records.at, &bytes)),
            Next::Record(record) => printer.record(records.number, record, out)?,
        }
    }
}

fn short(path: &Path, number: u64, bytes: &[u8]) -> Trouble {
    if let Some(other) = other_file(number + 1, bytes) {
        return no_log(path, other);
    }
    let left = counted(bytes.len() as u64, "byte");
    let are = if bytes.len() == 1 { "is" } else { "are" };
    let is_old = two(bytes, 0) == Some(OLD_RECORD as u16);
    let whole = if is_old { format!("an old record has {}", OLD_RECORD) } else { format!("a record has {}", RECORD) };
    let said = format!("{}: after {} there {} {}, and {}", files::shown(path), counted(number, "record"), are, left, whole);
    Trouble::new(Status::Refused, said).advise("it is cut off there, or it is no log")
}

struct Printer<'a> {
    labels: &'a Labels,
    json: bool,
    table: Table,
    before: Option<LogRecord>,
    /// The inputs that this record and those before it tell of.
    told: u64,
    /// The first record that cannot be the block's, and why, and how many there are.
    foreign: Option<(u64, String, u64)>,
    begun: bool,
}

impl Printer<'_> {
    /// The head, before the first record or the end, and not before an error.
    fn begin(&mut self, out: &mut Out) -> Outcome<()> {
        if self.json || self.begun {
            return Ok(());
        }
        self.begun = true;
        out.line(&self.table.head())
    }

    /// One record. Where it cannot be the block's its signals go by their numbers.
    fn record(&mut self, number: u64, record: LogRecord, out: &mut Out) -> Outcome<()> {
        let wrong = Some(self.labels).filter(|labels| labels.signals() > 0).and_then(|labels| cannot_be(&record, labels));
        let unknown = Labels::default();
        let labels = if wrong.is_some() { &unknown } else { self.labels };
        if let Some(why) = &wrong {
            let (_, _, count) = self.foreign.get_or_insert_with(|| (number, why.clone(), 0));
            *count += 1;
        }
        if self.json {
            return out.line(&object(number, &record, labels, wrong.as_deref()).done());
        }
        self.begin(out)?;
        self.told |= record.inputs | record.absent.unwrap_or(0);
        let cells = [
            number.to_string(),
            changed_inputs(self.given(&record), self.before.map(|before| self.given(&before)), |n| labels.input(n)),
            changed(record.outputs, self.before.map(|before| before.outputs), |n| labels.output(n)),
            code(record.code),
            record.rounds.to_string(),
        ];
        self.before = Some(record);
        out.line(&self.table.row(&cells.iter().map(String::as_str).collect::<Vec<_>>()))
    }

    /// The inputs of a record. Where the block is not known, at least the inputs below the highest that was told of by now are its.
    fn given(&self, record: &LogRecord) -> Given {
        let absent = match record.absent {
            Some(absent) => absent,
            None => return Given::heard(record.inputs),
        };
        let all = if self.labels.signals() > 0 { self.labels.all_inputs() } else { u64::MAX.checked_shr(self.told.leading_zeros()).unwrap_or(0) };
        Given { present: record.inputs, unheard: all & !(record.inputs | absent) }
    }

    fn end(&mut self, path: &Path, number: u64, out: &mut Out) -> Outcome<Status> {
        self.begin(out)?;
        if !self.json {
            out.line(&counted(number, "record"))?;
        }
        match &self.foreign {
            None => Ok(Status::Good),
            Some(_) if self.json => Ok(Status::Refused),
            Some((first, why, count)) => {
                let more = if *count == 1 { String::new() } else { format!(", and {} more cannot", grouped(count - 1)) };
                let said = format!("{}: record {} cannot be of the block of --block{}: {}", files::shown(path), grouped(*first), more, why);
                Err(Trouble::new(Status::Refused, said).advise("a log does not name its block: name the one that it was kept of; such records are shown without names"))
            }
        }
    }
}

fn object(number: u64, record: &LogRecord, labels: &Labels, wrong: Option<&str>) -> Object {
    let inputs: Vec<String> = members(record.inputs).map(|n| labels.input(n)).collect();
    let outputs: Vec<String> = members(record.outputs).map(|n| labels.output(n)).collect();
    let object = Object::new().number("record", number).texts("inputs", &inputs);
    let object = match record.absent {
        Some(absent) => object.texts("absent", &members(absent).map(|n| labels.input(n)).collect::<Vec<_>>()),
        None => object,
    };
    let object = object.texts("outputs", &outputs).number("code", record.code).number("rounds", record.rounds);
    match wrong {
        Some(why) => object.text("wrong", why),
        None => object,
    }
}
