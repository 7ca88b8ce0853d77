//! foldheron shelf: blocks of two parties in one file. Who changes it holds its lock, and puts the new shelf in its place in one step.

use super::check::tell_refused;
use super::Command;
use crate::args::{flag, nearest, with, Words};
use crate::block::{self, Report};
use crate::files::{self, shown};
use crate::hash::sha256;
use crate::json::Object;
use crate::layout::{BLOCK_MOST, HELD_MOST, SHELF};
use crate::lock;
use crate::output::Out;
use crate::replace::replace;
use crate::shelf::{object, Asked, Shelf};
use crate::status::Status;
use crate::table::{Column, Side, Table};
use crate::trouble::{Outcome, Trouble};
use crate::walk::{counted, grouped};
use foldheron::{check, Refusal};
use std::path::Path;

pub static COMMAND: Command = Command {
    name: "shelf",
    does: "keeps the blocks of two parties in one file",
    call: "FILE new [--over]\n\
           foldheron shelf FILE list --party P [--json]\n\
           foldheron shelf FILE install --party P --name N [--json] BLOCK\n\
           foldheron shelf FILE fetch --party P --name N [--over] [--json] OUT\n\
           foldheron shelf FILE withdraw --party P --name N [--json]",
    options: &[
        with("--party", "P", "whose blocks: 0 or 1"),
        with("--name", "N", "the block's name on the shelf, a number up to 65,535; each party has names of its own"),
        flag("--over", "write over the file that is there, where it is a shelf (new: all blocks of both parties go) or a good block (fetch)"),
        flag("--json", "objects, each on a line of its own"),
    ],
    more: "new begins an empty shelf where there is no file, or an empty one. Any other file it leaves as it is, and ends with 2. With\n\
           --over it begins an empty shelf in the place of a shelf: the blocks of both parties are gone then. A file that is no shelf, be\n\
           it a damaged one, is left as it is even so.\n\
           \n\
           list shows one party its own blocks, in the order in which it installed them, and how many bytes it holds: each block and 8\n\
           more. install puts a good block on the shelf, after all that is there; a name that the party has there is refused, and nothing\n\
           is replaced. fetch writes the party's block of that name into OUT. withdraw takes it off the shelf, and its room serves again;\n\
           fetch it first where you want to keep it. A shelf keeps blocks and no names of their signals: a names file is not fetched with\n\
           its block. What one party is told depends on its own calls alone. That holds of these commands, not of the file: who can read\n\
           it reads both parties' blocks.\n\
           \n\
           A shelf is written beside FILE, flushed to the disk and put in its place in one step: killed at any moment, FILE holds the old\n\
           shelf or the new one, whole. Two that change it at once are kept apart by the system's lock on FILE, for which the second\n\
           waits up to 5 seconds.\n",
    run,
};

/// What can be done with a shelf, and which options go with it.
struct Action {
    name: &'static str,
    takes: &'static [&'static str],
    run: fn(&Path, &Words, &mut Out) -> Outcome<Status>,
}

static ACTIONS: [Action; 5] = [
    Action { name: "new", takes: &["--over"], run: new },
    Action { name: "list", takes: &["--party", "--json"], run: list },
    Action { name: "install", takes: &["--party", "--name", "--json"], run: install },
    Action { name: "fetch", takes: &["--party", "--name", "--over", "--json"], run: fetch },
    Action { name: "withdraw", takes: &["--party", "--name", "--json"], run: withdraw },
];

const FILE: &str = "the shelf's file";
const DO: &str = "what to do with the shelf";

fn run(words: &Words, out: &mut Out) -> Outcome<Status> {
    let (path, word) = match words.free.as_slice() {
        [path, word, ..] => (Path::new(path), word.to_string_lossy()),
        _ => return words.exactly([FILE, DO]).map(|_| Status::Good),
    };
    let action = ACTIONS.iter().find(|action| action.name == word).ok_or_else(|| unknown(&word))?;
    let stray = COMMAND.options.iter().find(|option| words.has(option.name) && !action.takes.contains(&option.name));
    if let Some(option) = stray {
        return Err(Trouble::call(format!("{} and {} do not go together", action.name, option.name)));
    }
    if path == Path::new(files::STDIN) && !matches!(action.name, "list" | "fetch") {
        return Err(Trouble::call(format!("{} wants the shelf's file: - is standard input", action.name)));
    }
    (action.run)(path, words, out)
}

fn unknown(word: &str) -> Trouble {
    let names: Vec<&str> = ACTIONS.iter().map(|action| action.name).collect();
    let trouble = Trouble::call(format!("'{}' is nothing that can be done with a shelf", files::printable(word)));
    match nearest(word, names.iter().copied()) {
        Some(near) => trouble.advise(format!("is '{}' meant?", near)),
        None => trouble.advise(format!("after the shelf's file comes one of: {}", names.join(", "))),
    }
}

/// The number of an option, of two bytes: what it is, what is wanted, and what another word is said to be.
fn number(words: &Words, option: &str, what: &str, wanted: &str, other: &str) -> Outcome<u16> {
    let value = words.value(option).ok_or_else(|| Trouble::call(format!("{} is missing: {}", option, what)))?;
    let text = value.to_string_lossy();
    text.parse().map_err(|_| Trouble::call(format!("{} wants {}, and '{}' is {}", option, wanted, files::printable(&text), other)))
}

/// Any number of two bytes goes to the library, which turns down all but two.
fn party(words: &Words) -> Outcome<u16> {
    number(words, "--party", "whose blocks, 0 or 1", "0 or 1", "neither")
}

fn asked(words: &Words) -> Outcome<Asked> {
    Ok(Asked { party: party(words)?, name: number(words, "--name", "the block's name, a number", "a number from 0 to 65,535", "none")? })
}

/// Tells what is done by now.
fn done(line: &str, out: &mut Out) -> Outcome<Status> {
    out.line(line).and_then(|_| out.flush()).map_err(|trouble| trouble.advise("what was asked is done"))?;
    Ok(Status::Good)
}

fn turned_down(shelf: &Shelf, asked: Asked, why: Refusal, block: &[u8], words: &Words, out: &mut Out) -> Outcome<Status> {
    if !words.has("--json") {
        return Err(shelf.turned_down(asked, why, block));
    }
    out.line(&object(asked, why).done())?;
    Ok(Status::of(why.number))
}

fn new(path: &Path, words: &Words, out: &mut Out) -> Outcome<Status> {
    words.exactly([FILE, DO])?;
    // The empty file stands for the shelf until that is in its place: of two who begin one, one alone gets it.
    let is_made = lock::make(path)?;
    let _lock = lock::take(path)?;
    let begun = may_begin(path, words.has("--over")).and_then(|_| replace(path, &[0; SHELF]));
    if begun.is_err() && is_made && files::size(path) == Some(0) {
        let _ = std::fs::remove_file(path);
    }
    begun?;
    done(&format!("{}: an empty shelf, {} bytes", shown(path), grouped(SHELF as u64)), out)
}

/// Over a file that is there a shelf is begun only if that is asked for and it is one, or if it is empty.
fn may_begin(path: &Path, over: bool) -> Outcome<()> {
    let is_shelf = || Shelf::read(path).map(|shelf| shelf.refusal(0).is_none());
    if files::size(path) == Some(0) || over && is_shelf()? {
        return Ok(());
    }
    if over {
        return Err(Trouble::call(format!("{} is there and is no shelf: it is left as it is", shown(path))));
    }
    let trouble = Trouble::call(format!("{} is there: it is left as it is", shown(path)));
    Err(trouble.advise("with --over an empty shelf takes its place, where it is a shelf; both parties' blocks are gone then"))
}

fn list(path: &Path, words: &Words, out: &mut Out) -> Outcome<Status> {
    words.exactly([FILE, DO])?;
    let party = party(words)?;
    let shelf = Shelf::read(path)?;
    match shelf.refusal(party) {
        Some(why) if words.has("--json") => {
            out.line(&Object::new().number("refusal", why.number).text("name", foldheron::name_of(why.number).unwrap_or("")).number("party", party).done())?;
            Ok(Status::of(why.number))
        }
        Some(why) => Err(shelf.turned_down(Asked { party, name: 0 }, why, &[])),
        None if words.has("--json") => list_objects(&shelf, party, out),
        None => list_table(&shelf, party, out),
    }
}

fn version(block: &[u8]) -> u16 {
    check(block).map_or(0, |summary| summary.version)
}

fn list_table(shelf: &Shelf, party: u16, out: &mut Out) -> Outcome<Status> {
    let column = |title| Column { title, width: 7, side: Side::Right };
    let table = Table::new(["name", "version", "bytes", "held"].iter().map(|title| column(title)).collect());
    let own = shelf.own(party);
    if !own.is_empty() {
        out.line(&table.head())?;
    }
    for entry in &own {
        let sizes = [entry.block.len(), entry.length()].map(|size| grouped(size as u64));
        out.line(&table.row(&[&entry.name.to_string(), &version(entry.block).to_string(), &sizes[0], &sizes[1]]))?;
    }
    out.line(&format!("{} of party {}, which holds {}", counted(own.len() as u64, "block"), party, shelf.held_in_words(party)))?;
    Ok(Status::Good)
}

fn list_objects(shelf: &Shelf, party: u16, out: &mut Out) -> Outcome<Status> {
    let own = shelf.own(party);
    for entry in &own {
        let object = Object::new().number("entry", entry.name).number("version", version(entry.block)).number("bytes", entry.block.len() as u64);
        out.line(&object.number("held", entry.length() as u64).text("sha256", &sha256(entry.block)).done())?;
    }
    let all = Object::new().number("refusal", 0u64).number("party", party).number("blocks", own.len() as u64);
    out.line(&all.number("held", shelf.held(party)).number("most", HELD_MOST as u64).done())?;
    Ok(Status::Good)
}

fn install(path: &Path, words: &Words, out: &mut Out) -> Outcome<Status> {
    let [_, _, word] = words.exactly([FILE, DO, "the block's file"])?;
    let asked = asked(words)?;
    // Before the lock: a block may be waited for.
    let from = files::block_path(word);
    let block = files::block(&from)?;
    let (mut shelf, _lock) = Shelf::to_change(path)?;
    match foldheron::install(&mut shelf.bytes, asked.party, asked.name, &block) {
        Ok(()) => replace(path, &shelf.bytes)?,
        Err(why) if why.number > 8 => return turned_down(&shelf, asked, why, &block, words, out),
        Err(why) => return tell_refused(&Report::of(&from, &block, why), words, out),
    }
    told(&shelf, asked, "installed", &block, words, out)
}

/// The party, the name and the block in an object.
fn about(asked: Asked, block: &[u8]) -> Object {
    let object = Object::new().number("refusal", 0u64).number("party", asked.party).number("entry", asked.name);
    object.number("version", version(block)).number("bytes", block.len() as u64)
}

/// Tells what was done with a party's block, and what the party holds now.
fn told(shelf: &Shelf, asked: Asked, what: &str, block: &[u8], words: &Words, out: &mut Out) -> Outcome<Status> {
    let Asked { party, name } = asked;
    if words.has("--json") {
        return done(&about(asked, block).number("held", shelf.held(party)).number("most", HELD_MOST as u64).done(), out);
    }
    let which = format!("block {} of party {} {}: version {}, {}", name, party, what, version(block), counted(block.len() as u64, "byte"));
    done(&format!("{}: {}; the party holds {}", shown(&shelf.path), which, shelf.held_in_words(party)), out)
}

fn fetch(path: &Path, words: &Words, out: &mut Out) -> Outcome<Status> {
    let [_, _, word] = words.exactly([FILE, DO, "the file to write"])?;
    if word == files::STDIN {
        return Err(Trouble::call("fetch wants a file to write: - is standard input"));
    }
    let asked = asked(words)?;
    let shelf = Shelf::read(path)?;
    let mut into = [0; BLOCK_MOST];
    let block = match foldheron::fetch(&shelf.bytes, asked.party, asked.name, &mut into) {
        Ok(block) => block,
        Err(why) => return turned_down(&shelf, asked, why, &[], words, out),
    };
    let to = files::block_path(word);
    block::put(&to, block, words.has("--over"))?;
    if words.has("--json") {
        return done(&about(asked, block).text("sha256", &sha256(block)).text("file", &to.to_string_lossy()).done(), out);
    }
    let size = counted(block.len() as u64, "byte");
    done(&format!("{}: block {} of party {}: version {}, {}", shown(&to), asked.name, asked.party, version(block), size), out)
}

fn withdraw(path: &Path, words: &Words, out: &mut Out) -> Outcome<Status> {
    words.exactly([FILE, DO])?;
    let asked = asked(words)?;
    let (mut shelf, _lock) = Shelf::to_change(path)?;
    // A fetch is turned down as the withdrawal is; the block is wanted for what is said of it.
    let mut into = [0; BLOCK_MOST];
    let fetched = foldheron::fetch(&shelf.bytes, asked.party, asked.name, &mut into);
    match fetched.and_then(|block| foldheron::withdraw(&mut shelf.bytes, asked.party, asked.name).map(|_| block)) {
        Ok(block) => {
            replace(path, &shelf.bytes)?;
            told(&shelf, asked, "withdrawn", block, words, out)
        }
        Err(why) => turned_down(&shelf, asked, why, &[], words, out),
    }
}
