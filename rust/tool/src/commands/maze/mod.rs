//! foldheron maze: the two-player maze of a block's first instant. Whose rooms win, lose and draw and which corridors there are is the library's to say; who wins
//! in the rooms between, and how, is reckoned here over those corridors.

mod board;
mod dot;
mod form;
mod object;
mod page;
mod picture;
mod play;
mod program;
mod rooms;
mod words;

use super::Command;
use crate::args::{flag, with, Words};
use crate::block::{self, Block};
use crate::files;
use crate::names;
use crate::output::Out;
use crate::refusal;
use crate::sets;
use crate::status::Status;
use crate::trouble::{Outcome, Trouble};
use crate::walk::{walk, Statement};
use board::Board;
use foldheron::{maze, Refusal, Room};

pub static COMMAND: Command = Command {
    name: "maze",
    does: "shows the two-player maze of a block's first instant",
    call: "FILE [--in SET] [--room NAME] [--only] [--dot | --svg | --html | --json] [--names FILE | --no-names]",
    options: &[
        with("--in", "SET", "the inputs of the first instant in words, as run takes them, each of them heard; - for none. A block without inputs needs no set"),
        with("--room", "NAME", ROOM),
        flag("--only", "only what matters to who wins: without the gates of tests whose part emits nothing of the signal, and what lies\nbehind them alone"),
        flag("--dot", "the maze as a graph for the program dot"),
        flag("--svg", "the maze as a picture"),
        flag("--html", "a page on which the maze is walked, with the picture; it needs nothing else"),
        flag("--json", "an object"),
        names::OPTION,
        names::NO_OPTION,
    ],
    more: MORE,
    run,
};

const ROOM: &str = "a play from this room, move by move: a signal's, or as 'gate 2 of O', 'part 3 of O', 'dungeon', or as --json names\n\
                    it; with --dot, --svg or --html only the rooms that can be walked to from there";

const MORE: &str = "A token stands in a room. Who is to move takes it through a corridor: through a visible one, and the other is to move; through a
secret one, and moves on. Who cannot move has lost. A room wins where who is to move there can win, loses where the other can, and draws
where neither can. The room of a present signal wins, that of an absent one loses, and that of an undecided one draws: of the signals'
rooms that is the library's answer, and proved, and so are the corridors. Who wins in the other rooms, and how, is reckoned by this
program over those corridors: it is tested, and not proved.

There is a maze for blocks made of emit, parallel, and present with 'nothing' in exactly one branch; another block is refused with 26,
and the first statement is named at which it leaves that form.
";

/// A maze with what it was built from.
pub struct Asked {
    block: Block,
    statements: Vec<Statement>,
    inputs: u64,
    board: Board,
    /// The rooms that --only left out.
    left: Option<Vec<Room>>,
}

fn run(words: &Words, out: &mut Out) -> Outcome<Status> {
    let [word] = words.exactly(["the block's file"])?;
    let form = words.at_most_one(&["--dot", "--svg", "--html", "--json"])?;
    let block = match block::load_or_tell(words, word, out)? {
        Some(block) => block,
        None => return Ok(Status::BlockRefused),
    };
    let inputs = inputs(words, &block)?;
    let mut asked = match Asked::of(block, inputs) {
        Ok(asked) => asked,
        Err((block, why)) => return turned_down(&block, inputs, &why, form, out),
    };
    let room = words.value("--room").map(|name| asked.room(&name.to_string_lossy())).transpose()?;
    let room = asked.narrow(room, words.has("--only"));
    match (form, room) {
        (Some("--json"), None) => out.line(&object::whole(&asked)),
        (Some("--json"), Some(room)) => out.line(&object::play(&asked, room)),
        (None, None) => words::whole(&asked, out),
        (None, Some(room)) => words::play(&asked, room, out),
        (Some(form), _) => drawn(&asked, form, out),
    }?;
    Ok(Status::Good)
}

fn drawn(asked: &Asked, form: &str, out: &mut Out) -> Outcome<()> {
    match form {
        "--dot" => dot::told(asked, out),
        "--svg" => out.text(&picture::file(asked)),
        _ => out.text(&page::told(asked)),
    }
}

/// The one set of inputs.
fn inputs(words: &Words, block: &Block) -> Outcome<u64> {
    let text = match words.value("--in") {
        Some(text) => text.to_string_lossy(),
        None if block.labels.inputs().is_empty() => sets::NONE.into(),
        None => return Err(Trouble::call("--in is missing: the inputs that are present in the first instant; - for none")),
    };
    match sets::parse(&text, &block.labels)?.as_slice() {
        [set] if set.unheard == 0 => Ok(set.present),
        [_] => Err(Trouble::call("an input is given as not heard, and in a maze every input is present or absent").advise("leave the ?NAME out: what is not named is absent")),
        sets => Err(Trouble::call(format!("{} sets of inputs are given: a maze is of the first instant, and has one", sets.len()))),
    }
}

/// What is said of a maze that the library turned down, with 11 or 26.
fn turned_down(block: &Block, inputs: u64, why: &Refusal, form: Option<&str>, out: &mut Out) -> Outcome<Status> {
    let statements = walk(&block.bytes, block.bytes.len()).statements;
    let broken = form::broken(&statements, &block.labels).filter(|_| why.number == 26);
    let status = Status::of(why.number);
    if form == Some("--json") {
        return out.line(&object::refused(block, inputs, why, broken.as_ref())).map(|_| status);
    }
    let trouble = Trouble::new(status, format!("{}: no maze: refused with {}", files::shown(&block.path), refusal::title(why.number)));
    Err(match broken {
        Some((statement, wrong)) => {
            let trouble = trouble.advise(format!("statement {}: {}", statement, wrong)).advise(form::FORM);
            form::advice(&statements[statement]).into_iter().fold(trouble, Trouble::advise)
        }
        None => trouble.advise(refusal::meaning(why.number)).advise(refusal::advice(why.number)),
    })
}

impl Asked {
    fn of(block: Block, inputs: u64) -> Result<Asked, (Block, Refusal)> {
        let signals = usize::from(block.summary.inputs) + usize::from(block.summary.outputs);
        let built = maze(&block.bytes, inputs).and_then(|rooms| Board::of(&block.bytes, inputs, signals, &rooms));
        match built {
            Ok(board) => Ok(Asked { statements: walk(&block.bytes, block.bytes.len()).statements, block, inputs, board, left: None }),
            Err(why) => Err((block, why)),
        }
    }

    /// The inputs that are present, by name, in words.
    fn given(&self) -> String {
        match self.inputs {
            0 => "no input present".to_string(),
            inputs => format!("{} present", sets::sentence(inputs, |n| self.block.labels.input(n))),
        }
    }

    /// Leaves out what a play from this room cannot come to; of what is left, or of the whole maze, where `only` is asked for, the gates of tests whose part
    /// emits nothing of the signal. Answers where the room is now.
    fn narrow(&mut self, room: Option<usize>, only: bool) -> Option<usize> {
        let start = room.map(|n| self.board.places[n].room);
        if let Some(n) = room {
            self.board.keep_from([n]);
        }
        if only {
            let starts: Vec<usize> = match start {
                Some(room) => self.board.find(room).into_iter().collect(),
                None => (0..self.block.labels.outputs().end).collect(),
            };
            let statements = &self.statements;
            self.left = Some(self.board.leave_out(&starts, |room| is_idle(statements, room)));
        }
        start.and_then(|room| self.board.find(room))
    }
}

/// Whether a room is the gate of a test whose part emits nothing of the signal that sees it. The opponent lets the player pass there, and the player is lost.
fn is_idle(statements: &[Statement], room: Room) -> bool {
    match room {
        Room::Gate(i, a) => {
            let below = statements[i + 1..].iter().take_while(|s| s.level > statements[i].level);
            !below.filter(|s| s.kind.name == "emit").any(|s| s.operand.map(usize::from) == Some(a))
        }
        _ => false,
    }
}
