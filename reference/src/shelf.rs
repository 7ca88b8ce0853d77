//! One shelf, two parties: entries of blocks from the front, then zeros. A refused call changes no byte.

use std::collections::HashSet;

use crate::block::decode;
use crate::fault::Fault;
use crate::state::Answer;

pub const PARTY: u16 = 18;
pub const SHELF: u16 = 19;
pub const TAKEN: u16 = 20;
pub const QUOTA: u16 = 21;
pub const ABSENT: u16 = 22;

/// What stands before an entry's block: length, kind, party, name.
pub const HEAD: usize = 8;

/// How large a shelf is, and how much of it a party may hold; small ones are for histories that are all tried.
#[derive(Clone, Copy, PartialEq, Eq, Debug)]
pub struct Sizes {
    pub shelf: usize,
    pub party: usize,
}

pub const TRUE: Sizes = Sizes { shelf: 65_536, party: 32_768 };

/// An entry on a shelf: where it begins and ends.
#[derive(Clone, Copy)]
struct Entry {
    party: u16,
    name: u16,
    from: usize,
    to: usize,
}

/// The rules of a shelf of these sizes, true ones where no fault is planted.
#[derive(Clone, Copy)]
pub struct Shelf {
    pub sizes: Sizes,
    pub fault: Fault,
}

impl Shelf {
    fn planted(self, fault: Fault) -> bool {
        self.fault == fault
    }

    /// Puts a block under a name of one's own after the last entry.
    pub fn install(self, shelf: &mut [u8], party: u16, name: u16, block: &[u8]) -> Answer {
        let read = decode(block, Fault::None);
        if let (Err(refusal), true) = (&read, self.planted(Fault::BlockBeforeShelf)) {
            return Answer { place: refusal.place, ..Answer::refused(refusal.number) };
        }
        let entries = match self.opened(shelf, party) {
            Ok(entries) => entries,
            Err(answer) => return answer,
        };
        if let Err(refusal) = read {
            let shift = if self.planted(Fault::PlaceWithHead) { HEAD } else { 0 };
            return Answer { place: refusal.place + shift, ..Answer::refused(refusal.number) };
        }
        let found = entries.iter().find(|entry| entry.name == name && self.is_own(entry, party));
        let head = if self.planted(Fault::HeadNotCounted) { 0 } else { HEAD };
        let over = self.held(&entries, party) + head + block.len() > self.quota();
        if over && self.planted(Fault::QuotaBeforeTaken) {
            return Answer::refused(QUOTA);
        }
        if found.is_some() {
            return Answer::refused(TAKEN);
        }
        if over {
            return Answer::refused(QUOTA);
        }
        self.put(shelf, entries.last().map_or(0, |entry| entry.to), (party, name), block);
        Answer::default()
    }

    fn put(self, shelf: &mut [u8], end: usize, (party, name): (u16, u16), block: &[u8]) {
        let length = if self.planted(Fault::LengthOfBlock) { block.len() } else { HEAD + block.len() };
        let (one, other) = if self.planted(Fault::NameBeforeParty) { (name, party) } else { (party, name) };
        let head: Vec<u8> = [length as u16, 5, one, other].iter().flat_map(|word| word.to_le_bytes()).collect();
        let size = HEAD + block.len();
        if end + size > shelf.len() {
            return;
        }
        let at = if self.planted(Fault::InstalledAtFront) { 0 } else { end };
        shelf[at..end + size].rotate_right(size);
        shelf[at..at + HEAD].copy_from_slice(&head);
        shelf[at + HEAD..at + size].copy_from_slice(block);
    }

    /// The block's part of the shelf; refused, an empty part.
    pub fn fetch(self, shelf: &[u8], party: u16, name: u16) -> (Answer, &[u8]) {
        let entries = match self.opened(shelf, party) {
            Ok(entries) => entries,
            Err(answer) => return (answer, &[]),
        };
        let named = |entry: &&Entry| entry.name == name && (entry.party == party || self.planted(Fault::FetchedFromOther));
        match entries.iter().find(named) {
            None => (Answer::refused(ABSENT), &[]),
            Some(entry) if self.planted(Fault::FetchedWithHead) => (Answer::default(), &shelf[entry.from..entry.to]),
            Some(entry) => (Answer::default(), &shelf[entry.from + HEAD..entry.to]),
        }
    }

    /// Takes an entry off: those behind it move to the front in their order, and zeros come after them.
    pub fn withdraw(self, shelf: &mut [u8], party: u16, name: u16) -> Answer {
        let entries = match self.opened(shelf, party) {
            Ok(entries) => entries,
            Err(answer) => return answer,
        };
        let own = |entry: &Entry| entry.party == party || self.planted(Fault::WithdrawnFromOther);
        let at = match entries.iter().position(|entry| entry.name == name && own(entry)) {
            Some(at) => at,
            None if self.planted(Fault::AbsentWithdrawn) => return Answer::default(),
            None => return Answer::refused(ABSENT),
        };
        let (entry, last) = (entries[at], entries[entries.len() - 1]);
        let size = entry.to - entry.from;
        match self.fault {
            Fault::GapLeft => shelf[entry.from..entry.to].fill(0),
            Fault::TailLeft => shelf.copy_within(entry.to..last.to, entry.from),
            Fault::LastMovedForward => {
                // The last entry goes into the gap, before those that stood behind it.
                shelf[entry.from..last.to].rotate_left(size);
                shelf[last.to - size..last.to].fill(0);
                let moved = if at + 1 == entries.len() { 0 } else { last.to - last.from };
                shelf[entry.from..last.to - size].rotate_right(moved);
            }
            _ => {
                shelf.copy_within(entry.to..last.to, entry.from);
                shelf[last.to - size..last.to].fill(0);
            }
        }
        Answer { place: if self.planted(Fault::FreedTold) { size } else { 0 }, ..Answer::default() }
    }

    /// PARTY, then SHELF, which all calls test first.
    fn opened(self, shelf: &[u8], party: u16) -> Result<Vec<Entry>, Answer> {
        let entries = self.entries(shelf).ok_or_else(|| Answer::refused(SHELF));
        if self.planted(Fault::ShelfBeforeParty) && entries.is_err() {
            return entries;
        }
        if party > 1 + self.planted(Fault::PartyTwo) as u16 {
            return Err(Answer::refused(PARTY));
        }
        entries
    }

    fn quota(self) -> usize {
        match self.fault {
            Fault::QuotaLow => self.sizes.party - 2,
            Fault::QuotaHigh => self.sizes.party + 2,
            _ => self.sizes.party,
        }
    }

    fn is_own(self, entry: &Entry, party: u16) -> bool {
        entry.party == party || self.planted(Fault::TakenByOther)
    }

    /// The bytes of a party's entries.
    fn held(self, entries: &[Entry], party: u16) -> usize {
        let own = |entry: &&Entry| entry.party == party || self.planted(Fault::QuotaShared);
        let head = if self.planted(Fault::HeadNotCounted) { HEAD } else { 0 };
        entries.iter().filter(own).map(|entry| entry.to - entry.from - head).sum()
    }

    /// Entries of good blocks from the front, no party's name twice, quotas kept, then zeros; none where the bytes are not such.
    fn entries(self, shelf: &[u8]) -> Option<Vec<Entry>> {
        let longer = self.planted(Fault::LongerShelf) && shelf.len() > self.sizes.shelf;
        if shelf.len() != self.sizes.shelf && !longer {
            return None;
        }
        let (mut entries, mut at): (Vec<Entry>, usize) = (Vec::new(), 0);
        while let Some(entry) = self.entry(shelf, at)? {
            at = entry.to;
            entries.push(entry);
        }
        let mut names = HashSet::new();
        let once = entries.iter().all(|entry| names.insert((entry.party, entry.name)));
        let kept = (0..2).all(|party| self.held(&entries, party) <= self.sizes.party);
        let zeros = shelf[at..].iter().all(|&byte| byte == 0);
        let good = (once || self.planted(Fault::NameTwice))
            && (kept || self.planted(Fault::ShelfOverQuota))
            && (zeros || self.planted(Fault::RestUnread));
        if good { Some(entries) } else { None }
    }

    /// The entry that begins here; `Some(None)` where a length of 0 or the end of the shelf is, `None` where it is at fault.
    fn entry(self, shelf: &[u8], from: usize) -> Option<Option<Entry>> {
        if from == shelf.len() {
            return Some(None);
        }
        let word = |n: usize| shelf.get(from + 2 * n..from + 2 * n + 2).map(|two| u16::from_le_bytes([two[0], two[1]]));
        let length = word(0)? as usize;
        if length == 0 {
            return Some(None);
        }
        let (kind, party, name) = (word(1)?, word(2)?, word(3)?);
        let block = shelf.get(from + HEAD..from + length)?;
        let kind_good = kind == 5 || self.planted(Fault::EntryKindUnread);
        let party_good = party < 2 || self.planted(Fault::EntryPartyUnread);
        let block_good = decode(block, Fault::None).is_ok() || self.planted(Fault::EntryBlockUnread);
        if kind_good && party_good && block_good { Some(Some(Entry { party, name, from, to: from + length })) } else { None }
    }
}
