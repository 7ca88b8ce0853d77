//! What a run goes on from and what it keeps: the state, and the log. The log is on the disk before the state is replaced.

use super::asked::Asked;
use crate::block::Block;
use crate::files;
use crate::json::Object;
use crate::layout::{begins_state, State, RECORD, STATE};
use crate::log::Log;
use crate::output::Out;
use crate::refusal;
use crate::replace::{look, replace};
use crate::saved::{named, names, turned_down, TurnedDown};
use crate::sets::Given;
use crate::status::Status;
use crate::trouble::{Outcome, Trouble};
use foldheron::{fresh, instant, instant_heard, instant_heard_logged, instant_logged, name_of, Instant};
use std::path::{Path, PathBuf};

pub struct Kept {
    state: Vec<u8>,
    to: Option<PathBuf>,
    log: Option<Log>,
}

impl Kept {
    /// What is kept of a run that begins in this state.
    pub fn open(asked: &Asked, block: &Block, state: Vec<u8>) -> Outcome<Kept> {
        if let Some(to) = &asked.to {
            may_be_replaced(to, block, asked.over)?;
        }
        let log = asked.log.as_deref().map(|path| Log::open(path, &block.labels)).transpose()?;
        Ok(Kept { state, to: asked.to.clone(), log })
    }

    pub fn state(&self) -> &[u8] {
        &self.state
    }

    /// One instant, and its record where it is answered and a log is kept.
    pub fn instant(&mut self, block: &Block, given: Given) -> Outcome<Instant> {
        let log = match &mut self.log {
            Some(log) => log,
            None => return Ok(one(block, &mut self.state, given)),
        };
        let (bytes, state, absent) = (&block.bytes, &mut self.state, given.absent(block.labels.all_inputs()));
        let mut record = [0; RECORD];
        let logged = match given.unheard {
            0 => instant_logged(bytes, state, given.present, &mut record, 0),
            _ => instant_heard_logged(bytes, state, given.present, absent, &mut record, 0),
        };
        if let Instant::Answered(_) = logged.answer {
            log.append(&record)?;
        }
        Ok(logged.answer)
    }

    /// Flushes the log, then replaces the state.
    pub fn save(&mut self) -> Outcome<()> {
        if let Some(log) = &mut self.log {
            log.flush()?;
        }
        match &self.to {
            Some(to) => replace(to, &self.state),
            None => Ok(()),
        }
    }

    /// The run has failed: the state was not replaced, and the log loses what was put behind it.
    pub fn give_up(self, trouble: Trouble) -> Trouble {
        match self.log {
            Some(log) => trouble.advise(log.take_back()),
            None => trouble,
        }
    }
}

/// One instant over a state, without a log.
pub fn one(block: &Block, state: &mut [u8], given: Given) -> Instant {
    match given.unheard {
        0 => instant(&block.bytes, state, given.present),
        _ => instant_heard(&block.bytes, state, given.present, given.absent(block.labels.all_inputs())),
    }
}

/// The state from which a run begins: the saved one that is named, where the block takes it, or a fresh one.
pub fn begins(from: Option<&Path>, block: &Block) -> Outcome<Result<Vec<u8>, TurnedDown>> {
    let path = match from {
        Some(path) => path,
        None => return begun(block).map(Ok),
    };
    let state = files::state(path)?;
    Ok(match turned_down(block, &state) {
        None => Ok(state),
        Some(down) => Err(down),
    })
}

fn begun(block: &Block) -> Outcome<Vec<u8>> {
    let mut state = vec![0; STATE];
    fresh(&block.bytes, &mut state).map_err(|why| Trouble::new(Status::of(why.number), why.to_string()))?;
    Ok(state)
}

/// Tells of a saved state that the block does not take: an object where objects are asked for, else words on standard error.
pub fn not_taken(path: &Path, down: &TurnedDown, is_json: bool, out: &mut Out) -> Outcome<Status> {
    let status = Status::of(down.number);
    if is_json {
        let object = Object::new().text("state", &path.to_string_lossy()).number("refusal", down.number).text("name", name_of(down.number).unwrap_or(""));
        out.line(&object.text("wrong", &down.why).text("advice", down.advice).done())?;
        return Ok(status);
    }
    let said = format!("the state in {} is refused with {}: {}", files::shown(path), refusal::title(down.number), down.why);
    Err(Trouble::new(status, said).advise(format!("{} (without --from)", down.advice)).advise("foldheron state shows it"))
}

/// A file that is there is replaced by a state only if it is a state that names this block; with --over if it is any state.
fn may_be_replaced(path: &Path, block: &Block, over: bool) -> Outcome<()> {
    look(path)?;
    let length = match files::size(path) {
        None | Some(0) => return Ok(()),
        Some(length) => length,
    };
    let bytes = files::state(path)?;
    let left = |what: String| Trouble::call(format!("{} is there and is {}: it is left as it is", files::shown(path), what));
    if !begins_state(&bytes, length) {
        return Err(left("no state".to_string()).advise("remove it where it is not wanted any more, or name another file"));
    }
    let ours = named(block.summary.version, block.summary.statements);
    match State::of(&bytes) {
        _ if over => Ok(()),
        Some(state) if names(&state, &block.summary) => Ok(()),
        Some(state) => Err(left(format!("a state of {}", named(state.version, state.statements)))),
        None => Err(left("a state that names no block".to_string())),
    }
    .map_err(|trouble| trouble.advise(format!("this block is {}: save its state in another file, or say --over to write over that one", ours)))
}
