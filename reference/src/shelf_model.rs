//! A shelf without bytes: the list of entries that a history of calls leaves, and what each call is told.

use std::collections::{HashMap, HashSet};

use crate::block::decode;
use crate::fault::Fault;
use crate::shelf::{Sizes, ABSENT, PARTY, QUOTA, SHELF, TAKEN};

/// A call on a shelf.
#[derive(Clone, PartialEq, Eq, Debug)]
pub enum Use {
    Install { party: u16, name: u16, block: Vec<u8> },
    Fetch { party: u16, name: u16 },
    Withdraw { party: u16, name: u16 },
}

impl Use {
    pub fn party(&self) -> u16 {
        match self {
            Use::Install { party, .. } | Use::Fetch { party, .. } | Use::Withdraw { party, .. } => *party,
        }
    }
}

/// What a call is told: number, place, and the bytes fetched.
pub type Told = (u16, usize, Vec<u8>);

/// The entries in their order: party, name, block.
#[derive(Clone, Debug, Default, PartialEq, Eq)]
pub struct Model {
    pub entries: Vec<(u16, u16, Vec<u8>)>,
}

fn refused(number: u16) -> Told {
    (number, 0, Vec::new())
}

impl Model {
    fn find(&self, party: u16, name: u16) -> Option<usize> {
        self.entries.iter().position(|entry| (entry.0, entry.1) == (party, name))
    }

    /// The bytes of one party's entries, each with its length, kind, party and name.
    pub fn held(&self, party: u16) -> usize {
        self.entries.iter().filter(|entry| entry.0 == party).map(|entry| 8 + entry.2.len()).sum()
    }

    /// What the call is told, and the entries after it.
    pub fn call(&mut self, call: &Use, sizes: Sizes) -> Told {
        if call.party() > 1 {
            return refused(PARTY);
        }
        match call {
            Use::Install { party, name, block } => {
                if let Err(refusal) = decode(block, Fault::None) {
                    return (refusal.number, refusal.place, Vec::new());
                }
                if self.find(*party, *name).is_some() {
                    return refused(TAKEN);
                }
                if self.held(*party) + 8 + block.len() > sizes.party {
                    return refused(QUOTA);
                }
                self.entries.push((*party, *name, block.clone()));
                refused(0)
            }
            Use::Fetch { party, name } => match self.find(*party, *name) {
                Some(at) => (0, 0, self.entries[at].2.clone()),
                None => refused(ABSENT),
            },
            Use::Withdraw { party, name } => {
                let before = self.entries.len();
                self.entries.retain(|entry| (entry.0, entry.1) != (*party, *name));
                refused(if self.entries.len() < before { 0 } else { ABSENT })
            }
        }
    }

    /// The shelf that these entries make.
    pub fn bytes(&self, sizes: Sizes) -> Vec<u8> {
        let mut bytes = Vec::with_capacity(sizes.shelf);
        for (party, name, block) in &self.entries {
            let words = [8 + block.len() as u16, 5, *party, *name];
            words.iter().for_each(|word| bytes.extend(word.to_le_bytes()));
            bytes.extend(block);
        }
        bytes.resize(sizes.shelf.max(bytes.len()), 0);
        bytes
    }

    /// The only entries that make these bytes and may stand together, if there are such: lengths say where to cut, and what is cut
    /// has to make the same bytes again.
    pub fn of_bytes(bytes: &[u8], sizes: Sizes) -> Option<Model> {
        let mut model = Model::default();
        let mut rest = bytes;
        while rest.len() >= 8 && rest[..2] != [0, 0] {
            let word = |n: usize| rest[2 * n] as u16 + 256 * rest[2 * n + 1] as u16;
            let length = word(0) as usize;
            if length < 8 || length > rest.len() {
                return None;
            }
            model.entries.push((word(2), word(3), rest[8..length].to_vec()));
            rest = &rest[length..];
        }
        if bytes.len() == sizes.shelf && model.may_stand(sizes) && model.bytes(sizes) == bytes { Some(model) } else { None }
    }

    fn may_stand(&self, sizes: Sizes) -> bool {
        let mut names: HashMap<u16, HashSet<u16>> = HashMap::new();
        let once = self.entries.iter().all(|entry| names.entry(entry.0).or_default().insert(entry.1));
        let good = self.entries.iter().all(|entry| entry.0 < 2 && decode(&entry.2, Fault::None).is_ok());
        once && good && (0..2).all(|party| self.held(party) <= sizes.party)
    }

    /// What a call on any bytes is told, and the bytes after it.
    pub fn call_on(bytes: &[u8], call: &Use, sizes: Sizes) -> (Told, Vec<u8>) {
        match Model::of_bytes(bytes, sizes) {
            _ if call.party() > 1 => (refused(PARTY), bytes.to_vec()),
            None => (refused(SHELF), bytes.to_vec()),
            Some(mut model) => {
                let told = model.call(call, sizes);
                (told, model.bytes(sizes))
            }
        }
    }
}
