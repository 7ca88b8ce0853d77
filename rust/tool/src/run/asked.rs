//! What a call of run asks for: the files, the form of what is printed, and which of them do not go together.

use super::inputs::Source;
use super::picture::MOST;
use super::style::Tally;
use crate::args::Words;
use crate::block::Block;
use crate::files;
use crate::output::say;
use crate::sets;
use crate::status::Status;
use crate::trouble::{reason, Outcome, Trouble};
use std::io::{Error, ErrorKind};
use std::ops::RangeInclusive;
use std::path::{Path, PathBuf};

#[derive(Clone, Copy, PartialEq, Eq)]
pub enum Form {
    Table,
    Plain,
    Csv,
    Json,
    Svg,
    Vcd,
}

enum Inputs {
    File(PathBuf),
    /// The file beside the block, where none is named.
    Beside(PathBuf),
    Sets(String),
}

pub struct Asked {
    pub block: PathBuf,
    inputs: Inputs,
    /// The form that is asked for; none where none is named.
    form: Option<Form>,
    pub expect: Option<PathBuf>,
    pub from: Option<PathBuf>,
    pub to: Option<PathBuf>,
    /// Whether a state of another block may be written over.
    pub over: bool,
    pub log: Option<PathBuf>,
    /// Whether a 13 with inputs not heard is looked into.
    pub waits: bool,
    /// The instants of a picture.
    pub window: RangeInclusive<u64>,
}

impl Asked {
    pub fn of(words: &Words) -> Outcome<Asked> {
        let [word] = words.exactly(["the block's file"])?;
        let block = files::block_path(word);
        let form = words.at_most_one(&["--plain", "--csv", "--json", "--svg", "--vcd"])?.map(|name| match name {
            "--plain" => Form::Plain,
            "--csv" => Form::Csv,
            "--json" => Form::Json,
            "--svg" => Form::Svg,
            _ => Form::Vcd,
        });
        let inputs = inputs_of(words, &block)?;
        let path = |name: &str| words.value(name).map(PathBuf::from);
        let asked = Asked {
            block,
            inputs,
            form,
            expect: path("--expect"),
            from: path("--from"),
            to: path("--to"),
            over: words.has("--over"),
            log: path("--log"),
            waits: words.has("--waits"),
            window: window(words)?,
        };
        asked.look()?;
        Ok(asked)
    }

    /// Whether what is asked for goes together, and nothing that is read would be written over.
    fn look(&self) -> Outcome<()> {
        if self.expect.is_some() && (self.to.is_some() || self.log.is_some()) {
            return Err(Trouble::call("--expect only compares: it does not go together with --to or --log"));
        }
        if self.over && self.to.is_none() {
            return Err(Trouble::call("--over goes together with --to alone"));
        }
        if self.waits && !matches!(self.form(), Some(Form::Table | Form::Json)) {
            return Err(Trouble::call("--waits is told in the table and with --json alone"));
        }
        let named = [Some(self.block.as_path()), self.inputs_file(), self.expect.as_deref(), self.from.as_deref()];
        let read: Vec<&Path> = named.iter().flatten().copied().collect();
        if read.iter().filter(|path| **path == Path::new(files::STDIN)).count() > 1 {
            return Err(Trouble::call("only one file can be - , standard input"));
        }
        for (option, written) in [("--to", &self.to), ("--log", &self.log)] {
            if written.as_deref() == Some(Path::new(files::STDIN)) {
                return Err(Trouble::call(format!("{} wants a file: - is standard input", option)));
            }
            let clash = written.as_deref().and_then(|file| read.iter().find(|path| files::same(file, path)).map(|path| (file, path)));
            match clash {
                Some((_, path)) if option == "--to" && self.from.as_deref() == Some(path) => {}
                Some((file, _)) => return Err(Trouble::call(format!("{} {} would write over a file that is read", option, files::shown(file)))),
                None => {}
            }
        }
        match (&self.to, &self.log) {
            (Some(to), Some(log)) if files::same(to, log) => Err(Trouble::call("--to and --log name one file")),
            _ => Ok(()),
        }
    }

    /// That instants are chosen of a picture alone.
    pub fn look_at_window(&self, words: &Words) -> Outcome<()> {
        match [FIRST, LAST].iter().find(|option| words.has(option)) {
            Some(option) if self.form != Some(Form::Svg) => Err(Trouble::call(format!("{} goes together with --svg alone", option))),
            _ => Ok(()),
        }
    }

    pub fn form(&self) -> Option<Form> {
        match (self.form, &self.expect) {
            (None, None) => Some(Form::Table),
            (form, _) => form,
        }
    }

    pub fn inputs_file(&self) -> Option<&Path> {
        match &self.inputs {
            Inputs::File(path) | Inputs::Beside(path) => Some(path),
            Inputs::Sets(_) => None,
        }
    }

    /// Where the inputs are from, in words.
    pub fn inputs_in_words(&self) -> String {
        match &self.inputs {
            Inputs::File(path) | Inputs::Beside(path) => files::shown(path),
            Inputs::Sets(text) => files::printable(&sets::first(text)),
        }
    }

    /// Whether the run is printed for a person.
    pub fn speaks_in_words(&self) -> bool {
        self.form() == Some(Form::Table)
    }

    /// Whether anything is read or printed in which a name can stand.
    pub fn wants_names(&self) -> bool {
        self.form != Some(Form::Plain) || self.expect.is_some() || self.inputs_file().is_none()
    }

    /// Whether a missing file is empty, as it is for the run program.
    fn is_lenient(&self) -> bool {
        self.form == Some(Form::Plain)
    }

    pub fn block_bytes(&self) -> Outcome<Vec<u8>> {
        match files::first(&self.block, crate::layout::BLOCK_MOST + 1) {
            Err(why) if self.is_lenient() && why.kind() == ErrorKind::NotFound => {
                taken_for_empty(&self.block, &why);
                Ok(Vec::new())
            }
            read => read.map_err(|why| files::unread(&self.block, &why)),
        }
    }

    pub fn source(&self, block: &Block) -> Outcome<Source> {
        let path = match &self.inputs {
            Inputs::Sets(text) => return sets::parse(text, &block.labels).map(Source::of_sets),
            Inputs::File(path) | Inputs::Beside(path) => path,
        };
        match Source::open(path) {
            Err(why) if self.is_lenient() && why.kind() == ErrorKind::NotFound => {
                taken_for_empty(path, &why);
                Ok(Source::of_sets(Vec::new()))
            }
            Err(why) if matches!(self.inputs, Inputs::Beside(_)) && why.kind() == ErrorKind::NotFound => {
                Err(Trouble::file(files::shown(path), &why).advise("no inputs.bin beside the block: name one with --inputs, or give sets with --in"))
            }
            Err(why) => Err(files::unread(path, &why).advise("the sets of inputs: --inputs FILE, or in words --in \"A; B C; -\"")),
            Ok(source) => Ok(source),
        }
    }

    /// What a run that came to its end ends with. As expected is good, whatever was expected.
    pub fn status(&self, tally: &Tally) -> Status {
        if self.expect.is_some() {
            return Status::Good;
        }
        let short = if tally.short > 0 { Status::Short } else { Status::Good };
        tally.refused.iter().fold(short, |status, (number, _)| status.and(Status::of(*number)))
    }

    pub fn refused_status(&self) -> Status {
        if self.expect.is_some() {
            Status::Good
        } else {
            Status::BlockRefused
        }
    }
}

pub const FIRST: &str = "--from-instant";
pub const LAST: &str = "--to-instant";

/// Which instants a picture has: as many as are readable, from the first on or up to the last that is asked for.
pub fn window(words: &Words) -> Outcome<RangeInclusive<u64>> {
    let number = |name: &str| words.value(name).map(|text| numbered(name, &text.to_string_lossy())).transpose();
    let (first, last) = match (number(FIRST)?, number(LAST)?) {
        (None, None) => (1, MOST),
        (Some(first), None) => (first, first.saturating_add(MOST - 1)),
        (None, Some(last)) => ((last + 1).saturating_sub(MOST).max(1), last),
        (Some(first), Some(last)) => (first, last),
    };
    if last < first {
        return Err(Trouble::call(format!("{} {} comes after {} {}", FIRST, first, LAST, last)));
    }
    if last - first >= MOST {
        return Err(Trouble::call(format!("a picture has {} instants at most, and {} to {} are more", MOST, first, last)).advise("draw several, each with its part"));
    }
    Ok(first..=last)
}

fn numbered(name: &str, text: &str) -> Outcome<u64> {
    let number = text.parse().ok().filter(|number| (1..u64::MAX).contains(number));
    number.ok_or_else(|| Trouble::call(format!("{} wants an instant's number, from 1 on, and not '{}'", name, files::printable(text))))
}

/// Says of a missing file what is made of it: what is printed is the run program's, which says nothing.
fn taken_for_empty(path: &Path, why: &Error) {
    say(&[format!("{}: {}; taken for empty, as --plain does", files::shown(path), reason(why))]);
}

/// The inputs: a file, or sets in words; without either the file inputs.bin beside the block.
fn inputs_of(words: &Words, block: &Path) -> Outcome<Inputs> {
    words.at_most_one(&["--inputs", "--in"])?;
    if let Some(text) = words.value("--in") {
        let text = text.to_str().ok_or_else(|| Trouble::call("the sets of --in are no text in UTF-8"))?;
        return Ok(Inputs::Sets(text.to_string()));
    }
    match words.value("--inputs") {
        Some(file) => Ok(Inputs::File(PathBuf::from(file))),
        None if block == Path::new(files::STDIN) => Err(Trouble::call("the block comes from standard input: say --inputs or --in")),
        None => Ok(Inputs::Beside(block.with_file_name("inputs.bin"))),
    }
}
