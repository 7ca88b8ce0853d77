//! A shelf's file, what one party has on it, and a call that was turned down in words. A party hears of its own entries and of no others, so that what is
//! said here depends on its own calls alone, as what the library tells does.

use crate::files::{self, shown};
use crate::json::Object;
use crate::layout::{begins_log_record, begins_state, entries, Entry, Header, BLOCK_MOST, ENTRY, HELD_MOST, SHELF};
use crate::lock::{self, Lock};
use crate::refusal;
use crate::status::Status;
use crate::trouble::{Outcome, Trouble};
use crate::walk::{counted, grouped};
use foldheron::{fetch, name_of, Refusal};
use std::fs;
use std::io::{self, ErrorKind};
use std::path::{Path, PathBuf};

pub struct Shelf {
    pub path: PathBuf,
    pub bytes: Vec<u8>,
}

/// Whose block is asked for, and its name.
#[derive(Clone, Copy)]
pub struct Asked {
    pub party: u16,
    pub name: u16,
}

impl Shelf {
    /// The bytes of a file: one more than a shelf has is enough to refuse it.
    pub fn read(path: &Path) -> Outcome<Shelf> {
        let bytes = files::first(path, SHELF + 1).map_err(|why| unread(path, &why))?;
        Ok(Shelf { path: path.to_path_buf(), bytes })
    }

    /// The same for who is going to replace it: nobody else does so while the lock is kept.
    pub fn to_change(path: &Path) -> Outcome<(Shelf, Lock)> {
        fs::metadata(path).map_err(|why| unread(path, &why))?;
        let lock = lock::take(path)?;
        Ok((Shelf::read(path)?, lock))
    }

    /// Why the party is not told of its entries, if it is not: a fetch is turned down so too, unless there is no such block.
    pub fn refusal(&self, party: u16) -> Option<Refusal> {
        fetch(&self.bytes, party, 0, &mut [0; BLOCK_MOST]).err().filter(|why| why.number != 22)
    }

    /// The party's entries in the order in which it installed them.
    pub fn own(&self, party: u16) -> Vec<Entry<'_>> {
        entries(&self.bytes).into_iter().filter(|entry| entry.party == party).collect()
    }

    pub fn held(&self, party: u16) -> u64 {
        self.own(party).iter().map(|entry| entry.length() as u64).sum()
    }

    /// What the party holds of what it may.
    pub fn held_in_words(&self, party: u16) -> String {
        format!("{} of {} bytes", grouped(self.held(party)), grouped(HELD_MOST as u64))
    }

    /// Why a call was turned down, by a number above 8; the block is the one that was to be installed.
    pub fn turned_down(&self, asked: Asked, why: Refusal, block: &[u8]) -> Trouble {
        let (wrong, advice) = match why.number {
            18 => (format!("there is no party {}", asked.party), "there are two, 0 and 1: say --party 0 or --party 1".to_string()),
            19 => self.no_shelf(),
            20 => (format!("party {} has a block of the name {}, and nothing is replaced", asked.party, asked.name), self.advise_taken(asked)),
            21 => (self.too_much(asked.party, block), format!("withdraw a block first; {}", self.advise_names(asked.party))),
            22 => (format!("party {} has no block of the name {}", asked.party, asked.name), self.advise_names(asked.party)),
            other => (refusal::meaning(other), refusal::advice(other).to_string()),
        };
        let said = format!("{}: refused with {}: {}", shown(&self.path), refusal::title(why.number), wrong);
        Trouble::new(Status::of(why.number), said).advise(advice)
    }

    /// The file as a word of a call.
    fn word(&self) -> String {
        files::printable(&self.path.to_string_lossy())
    }

    fn advise_names(&self, party: u16) -> String {
        format!("foldheron shelf {} list --party {} shows the names that it has", self.word(), party)
    }

    fn advise_taken(&self, asked: Asked) -> String {
        let withdraw = format!("foldheron shelf {} withdraw --party {} --name {}", self.word(), asked.party, asked.name);
        format!("choose another name, or withdraw that block first: {}", withdraw)
    }

    /// A shelf that is damaged is mended by no command, and not written over.
    fn advise_copy(&self) -> String {
        format!("take the last good copy of it; where there is none, move it away, begin with foldheron shelf {} new and install the blocks from their files", self.word())
    }

    fn too_much(&self, party: u16, block: &[u8]) -> String {
        let entry = counted((ENTRY + block.len()) as u64, "byte");
        format!("party {} holds {}, and this entry has {}: {} and the block", party, self.held_in_words(party), entry, ENTRY)
    }

    /// Why the bytes are no shelf, and what to do. Which entry is at fault is not said: it may be the other party's.
    fn no_shelf(&self) -> (String, String) {
        let (bytes, mean) = (&self.bytes, "look whether this is the file you mean: the shelf's file comes first".to_string());
        if bytes.is_empty() {
            return ("the file is empty".to_string(), format!("to begin an empty shelf there: foldheron shelf {} new", self.word()));
        }
        let other = if Header::of(bytes).is_some() {
            Some("this is a block")
        } else if begins_log_record(bytes) {
            Some("this is a log")
        } else if begins_state(bytes, bytes.len() as u64) {
            Some("this is a state")
        } else {
            None
        };
        match (other, bytes.len()) {
            (Some(what), _) => (what.to_string(), mean),
            (None, SHELF) => {
                let wrong = "its bytes are not entries of good blocks and then zeros: something else than these commands changed it";
                (wrong.to_string(), self.advise_copy())
            }
            (None, size) if size > SHELF => (format!("it has more than {} bytes", grouped(SHELF as u64)), mean),
            (None, size) => {
                let wrong = format!("it has {}, and a shelf has {}", counted(size as u64, "byte"), grouped(SHELF as u64));
                (wrong, format!("it was cut off, or is another file: {}", self.advise_copy()))
            }
        }
    }
}

/// A call that was turned down, for programs.
pub fn object(asked: Asked, why: Refusal) -> Object {
    let object = Object::new().number("refusal", why.number).text("name", name_of(why.number).unwrap_or(""));
    object.number("party", asked.party).number("entry", asked.name)
}

fn unread(path: &Path, why: &io::Error) -> Trouble {
    let trouble = files::unread(path, why);
    match why.kind() {
        ErrorKind::NotFound => trouble.advise(format!("to begin an empty shelf: foldheron shelf {} new", shown(path))),
        _ => trouble,
    }
}
