//! foldheron same: whether two blocks do the same from fresh under every run of inputs, or the run that tells them apart. The answer is the library's; the table is that
//! run, run on both.

mod lines;
mod picture;
mod search;
mod words;

use super::check;
use super::Command;
use crate::args::{flag, with, Words};
use crate::block::{self, Block, Report};
use crate::files;
use crate::labels::Labels;
use crate::layout::SET;
use crate::names;
use crate::output::{warn, Out};
use crate::replace::{look, replace};
use crate::run::plain::block_line;
use crate::status::Status;
use crate::trouble::{Outcome, Trouble};
use foldheron::RUN_MOST;
use search::Found;
use std::path::{Path, PathBuf};

pub static COMMAND: Command = Command {
    name: "same",
    does: "says whether two blocks do the same, or shows a run that tells them apart",
    call: "[--plain | --csv | --json | --svg] [--to FILE [--over]] [--names FILE | --no-names] OLD NEW",
    options: &[
        flag("--plain", PLAIN),
        flag("--csv", "the same with a head, and a column for each signal"),
        flag("--json", "an object an instant, each on a line of its own, and a last one with the answer"),
        flag("--svg", "the run as a timing diagram: the inputs, the old block and the new one, with the first difference framed"),
        with("--to", "FILE", "write the run into FILE, as sets of inputs that foldheron run takes with --inputs"),
        flag("--over", "write it over a file that is there, where that holds sets of up to 6 inputs"),
        with("--names", "FILE", "take the signals' names from FILE, the names file of either block, not from the files beside them"),
        names::NO_OPTION,
    ],
    more: MORE,
    run,
};

const PLAIN: &str = "of the run a line an instant: its number, the inputs, then refusal, code and outputs of the old block, and of
the new one, sets as numbers; no line where they are alike, 'refused N' where the two are turned down,
and 'old block N P' or 'new block N P' where one of them is, with N at offset P";

const MORE: &str = "Alike means: from fresh, in every instant of every run of inputs, both are refused with 13, or both are answered with the same
outputs and the same code. Rounds are not compared, and every input is heard. That is the library's answer, and proved, and so is that no shorter
run shows the difference that is shown. The signals are compared by their numbers, whatever their names are;
where the two names files call one signal by two names the answer says so.

Two files with the same bytes are alike, whatever else is said below.

It says nothing of saved states: two blocks that are alike may go on from one state otherwise. After an update start afresh.

The blocks have to have as many inputs and as many outputs (else 23, INTERFACE), and 6 inputs at most (else 24, WIDE). Where runs that show no
difference lead to over 1,024 pairs of states it cannot be told (25, PAIRS).

It ends with 0 where they are alike, with 6 where they are not, and with 7 where it cannot be told. A search that takes longer than a second says
so on standard error.
";

/// The two blocks, and what their signals are called.
pub struct Pair {
    pub old: Block,
    pub new: Block,
    pub labels: Labels,
    pub renamed: Vec<Renamed>,
}

impl Pair {
    pub fn has_same_bytes(&self) -> bool {
        self.old.bytes == self.new.bytes
    }
}

/// A signal that the two names files call by two names.
pub struct Renamed {
    pub signal: usize,
    pub old: String,
    pub new: String,
}

pub fn in_words(renamed: &[Renamed]) -> String {
    renamed.iter().map(|two| format!("signal {} is {} and {}", two.signal, two.old, two.new)).collect::<Vec<_>>().join(", ")
}

/// What stands for the two blocks wherever they are spoken of.
pub const SIDES: [&str; 2] = ["old", "new"];

#[derive(Clone, Copy, PartialEq, Eq)]
enum Form {
    Words,
    Plain,
    Csv,
    Json,
    Svg,
}

struct Asked {
    form: Form,
    paths: [PathBuf; 2],
    to: Option<To>,
}

/// The file that the run is written into, and how many sets it had before.
pub struct To {
    pub path: PathBuf,
    pub before: usize,
}

fn run(words: &Words, out: &mut Out) -> Outcome<Status> {
    let asked = asked(words)?;
    let old = match good(&asked, 0, out)? {
        Some(block) => block,
        None => return Ok(Status::BlockRefused),
    };
    let new = match good(&asked, 1, out)? {
        Some(block) => block,
        None => return Ok(Status::BlockRefused),
    };
    let pair = named(words, old, new)?;
    let found = search::search(&pair);
    if let (Some(to), Found::Different(steps)) = (&asked.to, &found) {
        let sets: Vec<u8> = steps.iter().flat_map(|step| step.inputs.to_le_bytes()).collect();
        replace(&to.path, &sets)?;
    }
    tell(&asked, &pair, &found, out)?;
    Ok(found.status())
}

fn asked(words: &Words) -> Outcome<Asked> {
    let [old, new] = words.exactly(["the old block's file", "the new block's file"])?;
    let form = match words.at_most_one(&["--plain", "--csv", "--json", "--svg"])? {
        Some("--plain") => Form::Plain,
        Some("--csv") => Form::Csv,
        Some("--svg") => Form::Svg,
        Some(_) => Form::Json,
        None => Form::Words,
    };
    if old == files::STDIN && new == files::STDIN {
        return Err(Trouble::call("only one file can be - , standard input"));
    }
    let paths = [old, new].map(files::block_path);
    let to = match words.value("--to").map(PathBuf::from) {
        None if words.has("--over") => return Err(Trouble::call("--over goes together with --to alone")),
        None => None,
        Some(path) => Some(may_be_written(path, &paths, words.has("--over"))?),
    };
    Ok(Asked { form, paths, to })
}

/// The run goes into a file that is not there or is empty; over another only if that is asked for and it holds sets. That is told before the search.
fn may_be_written(path: PathBuf, read: &[PathBuf], over: bool) -> Outcome<To> {
    let to = path.as_path();
    if to == Path::new(files::STDIN) {
        return Err(Trouble::call("--to wants a file: - is standard input"));
    }
    if read.iter().any(|path| files::same(path, to)) {
        return Err(Trouble::call(format!("--to {} would write over a file that is read", files::shown(to))));
    }
    look(to)?;
    let left = |what: &str| Trouble::call(format!("{} is there{}: it is left as it is", files::shown(to), what));
    match files::size(to) {
        None | Some(0) => Ok(To { path, before: 0 }),
        Some(_) if over => match sets_in(to) {
            Some(before) => Ok(To { path, before }),
            None => Err(left(" and holds no sets of up to 6 inputs")),
        },
        Some(_) => Err(left("").advise("with --over the run takes its place, where it holds sets of up to 6 inputs")),
    }
}

/// How many sets a file holds, where it may be one that was written here: no more than a run has, and of no more inputs than are compared. A text is none.
fn sets_in(path: &Path) -> Option<usize> {
    let most = RUN_MOST * SET;
    let bytes = files::first(path, most + 1).ok()?;
    let is_set = |set: &[u8]| set[0] < 1 << 6 && set[1..].iter().all(|byte| *byte == 0);
    let is_run = bytes.len() <= most && bytes.len() % SET == 0 && bytes.chunks_exact(SET).all(is_set);
    is_run.then(|| bytes.len() / SET)
}

/// One of the two blocks, or none where it is refused and that is told as a line.
fn good(asked: &Asked, side: usize, out: &mut Out) -> Outcome<Option<Block>> {
    let path = &asked.paths[side];
    let bytes = files::block(path)?;
    let report = match foldheron::check(&bytes) {
        Ok(_) => return block::unnamed(path.clone(), bytes).map(Some),
        Err(why) => Report::of(path, &bytes, why),
    };
    match asked.form {
        Form::Json => out.line(&check::refused(&report).text("block", SIDES[side]).done())?,
        Form::Plain => out.line(&format!("{} {}", SIDES[side], block_line(&report)))?,
        Form::Words | Form::Csv | Form::Svg => {
            let mut lines = report.lines();
            lines[0] = format!("the {} block, {}", SIDES[side], lines[0]);
            return Err(Trouble { status: Status::BlockRefused, lines });
        }
    }
    Ok(None)
}

/// What each block's names file calls its signals. A file that is named, or that is beside both as pump.names beside pump.bin and pump.new, is for one of the two.
fn names_of(words: &Words, old: &Block, new: &Block) -> Outcome<(Labels, Labels)> {
    let of = |block: &Block| names::labels(words, &block.path, &block.bytes, &block.summary);
    let numbered = |block: &Block| Labels::numbered(&block.summary);
    if names::is_named(words) {
        return of(old).map(|labels| (labels, numbered(new))).or_else(|trouble| of(new).map(|labels| (numbered(old), labels)).map_err(|_| trouble));
    }
    let is_shared = old.bytes != new.bytes && files::same(&names::beside(&old.path), &names::beside(&new.path));
    match (is_shared, names::fits(&new.path, &new.bytes, &new.summary)) {
        (false, _) => Ok((of(old)?, of(new)?)),
        (true, true) => Ok((numbered(old), of(new)?)),
        (true, false) => Ok((of(old)?, numbered(new))),
    }
}

/// The two with their names, and one name for each signal: the old block's, or the new one's where that has none.
fn named(words: &Words, old: Block, new: Block) -> Outcome<Pair> {
    let (first, second) = names_of(words, &old, &new)?;
    let numbered = |block: &Block| Labels::numbered(&block.summary);
    let mut labels = numbered(&old);
    for signal in labels.inputs().chain(labels.outputs()) {
        if let Some(name) = first.name(signal).or_else(|| second.name(signal)) {
            // A name of the one may be another signal's of the other: that signal goes by its number.
            let _ = labels.give(signal, name);
        }
    }
    let renamed = if labels.outputs() == numbered(&new).outputs() { renamed(&labels, &first, &second) } else { Vec::new() };
    Ok(Pair { old: Block { labels: first, ..old }, new: Block { labels: second, ..new }, labels, renamed })
}

/// Where the two files call a signal by two names, a warning says so too: the update may have moved a wire.
fn renamed(labels: &Labels, old: &Labels, new: &Labels) -> Vec<Renamed> {
    let both = labels.inputs().chain(labels.outputs()).filter_map(|n| Some((n, old.name(n)?, new.name(n)?)));
    let unlike: Vec<Renamed> = both.filter(|(_, one, other)| one != other).map(|(signal, one, other)| Renamed { signal, old: one.to_string(), new: other.to_string() }).collect();
    if !unlike.is_empty() {
        warn(format!("by the old names and the new ones {}", in_words(&unlike)), "signals are compared by their numbers, whatever they are called; the old names are used");
    }
    unlike
}

fn tell(asked: &Asked, pair: &Pair, found: &Found, out: &mut Out) -> Outcome<()> {
    match asked.form {
        Form::Words => words::tell(pair, found, asked.to.as_ref(), out),
        Form::Plain => lines::plain(found, out),
        Form::Csv => lines::csv(pair, found, out),
        Form::Json => lines::json(pair, found, out),
        Form::Svg => picture::tell(pair, found, out),
    }
}
