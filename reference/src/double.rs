//! A block with each loop body in sequence with itself, and locals numbered anew.

use crate::block::{decode, encode_tokens, Block, Form, Header, Statement, Token};
use crate::fault::Fault;
use crate::state::{Answer, ROOM};

const LIMIT: u16 = 4;

/// No block has more statements; where there are more, no further one is put.
const FULL: usize = 520;

/// The call: 1 to 8, 4 at place 0 where the doubled block passes a limit, then 12; else the bytes of the doubled block and their
/// count.
pub fn double_loops(block: &[u8], out: &mut [u8], fault: Fault) -> (Answer, usize) {
    let read = match decode(block, Fault::None) {
        Ok(read) => read,
        Err(refusal) => return (Answer { place: refusal.place, ..Answer::refused(refusal.number) }, 0),
    };
    let bytes = Doubling::of(&read, fault).bytes(&read, fault);
    let refusal = decode(&bytes, Fault::None).err();
    let limit = refusal.map(|refusal| Answer {
        place: if fault == Fault::LimitKeepsPlace { refusal.place } else { 0 },
        ..Answer::refused(LIMIT)
    });
    let room = match fault {
        Fault::CopyRoomLow => out.len() + 1 < bytes.len(),
        Fault::CopyRoomHigh => out.len() < bytes.len() + 1,
        Fault::CopyRoomAlways => out.len() < 3086,
        _ => out.len() < bytes.len(),
    };
    match limit {
        _ if room && fault == Fault::RoomBeforeLimit => (Answer::refused(ROOM), 0),
        Some(limit) => (limit, 0),
        None if room => (Answer::refused(ROOM), 0),
        None => {
            let size = bytes.len().min(out.len());
            out[..size].copy_from_slice(&bytes[..size]);
            (Answer::default(), size)
        }
    }
}

/// The doubled block, if it keeps within the limits.
pub fn doubled(block: &Block) -> Option<Block> {
    doubled_from(block).map(|pair| pair.0)
}

/// The doubled block, and for each of its statements the number of the one that it is a copy of.
pub fn doubled_from(block: &Block) -> Option<(Block, Vec<Option<usize>>)> {
    let doubling = Doubling::of(block, Fault::None);
    let double = decode(&doubling.bytes(block, Fault::None), Fault::None).ok()?;
    Some((double, doubling.from))
}

struct Doubling {
    /// The locals around, by their old and new numbers.
    names: Vec<(u16, u16)>,
    next: u16,
    tokens: Vec<Token>,
    /// What each is a copy of; a sequence that doubles a body is of nothing.
    from: Vec<Option<usize>>,
    fault: Fault,
}

impl Doubling {
    fn of(block: &Block, fault: Fault) -> Doubling {
        let next = block.header.inputs + block.header.outputs;
        let mut doubling = Doubling { names: Vec::new(), next, tokens: Vec::new(), from: Vec::new(), fault };
        doubling.put(&block.root, 0);
        doubling
    }

    fn bytes(&self, block: &Block, fault: Fault) -> Vec<u8> {
        let locals = self.next - block.header.inputs - block.header.outputs;
        let header = match fault {
            Fault::LocalsNotCounted => block.header,
            Fault::VersionRaised => Header { locals, version: block.header.version.wrapping_add(1), ..block.header },
            _ => Header { locals, ..block.header },
        };
        encode_tokens(header, &self.tokens)
    }

    fn put(&mut self, p: &Statement, loops: usize) {
        if self.tokens.len() > FULL {
            return;
        }
        let before = self.names.len();
        if p.form == Form::Local {
            let kept = self.fault == Fault::CopiesShareNames && self.names.iter().any(|pair| pair.0 == p.operand);
            if !kept {
                self.names.push((p.operand, self.next));
                self.next += 1;
            }
        }
        let named = self.names.iter().rev().find(|pair| p.form.names_signal() && pair.0 == p.operand);
        self.tokens.push((p.form, named.map_or(p.operand, |pair| pair.1)));
        self.from.push(Some(p.number));
        let doubles = match self.fault {
            Fault::OuterLoopOnly => loops == 0,
            Fault::InnerLoopsOnly => !holds_loop(&p.parts),
            Fault::NothingDoubled => false,
            _ => true,
        };
        let inner = loops + (p.form == Form::Loop) as usize;
        if p.form == Form::Loop && doubles {
            self.tokens.push((if self.fault == Fault::CopiesBesideEachOther { Form::Parallel } else { Form::Sequence }, 0));
            self.from.push(None);
            self.put(&p.parts[0], inner);
        }
        p.parts.iter().for_each(|part| self.put(part, inner));
        if self.fault != Fault::CopiesShareNames {
            self.names.truncate(before);
        }
    }
}

fn holds_loop(parts: &[Statement]) -> bool {
    parts.iter().any(|p| p.form == Form::Loop || holds_loop(&p.parts))
}
