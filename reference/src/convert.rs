//! Edition 2: halt, sustain, await and abort written out in edition 1.

use crate::block::{decode, decode_edition, encode_edition, Form, Statement, Token};
use crate::fault::Fault;
use crate::state::{Answer, ROOM};

const LIMIT: u16 = 4;

/// The call: 1 to 8 on a block of edition 2, 4 at place 0 where the result passes a limit, then 12; else the bytes of the result and
/// their count.
pub fn convert(block: &[u8], out: &mut [u8], fault: Fault) -> (Answer, usize) {
    let other = fault == Fault::EitherEdition && block.get(4) == Some(&1);
    let read = match decode_edition(block, if other { 1 } else { 2 }, fault) {
        Ok(read) => read,
        Err(refusal) => return (Answer { place: refusal.place, ..Answer::refused(refusal.number) }, 0),
    };
    let tokens = converted(&read.root, fault);
    let good = encode_edition(1, read.header, &tokens);
    let bytes = encode_edition(if fault == Fault::EditionKept { 2 } else { 1 }, read.header, &tokens);
    let short = match fault {
        Fault::ConvertRoomLow => out.len() + 1 < bytes.len(),
        Fault::ConvertRoomHigh => out.len() < bytes.len() + 1,
        _ => out.len() < bytes.len(),
    };
    if short && fault == Fault::ConvertRoomFirst {
        return (Answer::refused(ROOM), 0);
    }
    if let Err(refusal) = decode(&good, Fault::None) {
        let place = if fault == Fault::ConvertLimitPlace { refusal.place } else { 0 };
        return (Answer { place, ..Answer::refused(LIMIT) }, 0);
    }
    if short {
        return (Answer::refused(ROOM), 0);
    }
    let size = bytes.len().min(out.len());
    out[..size].copy_from_slice(&bytes[..size]);
    (Answer::default(), size)
}

/// The statements of edition 1 that a statement stands for.
pub fn converted(p: &Statement, fault: Fault) -> Vec<Token> {
    let mut converting = Converting { tokens: Vec::new(), around: Vec::new(), fault };
    converting.put(p);
    converting.tokens
}

struct Converting {
    tokens: Vec<Token>,
    /// The traps and aborts around, the innermost last: whether each is an abort.
    around: Vec<bool>,
    fault: Fault,
}

impl Converting {
    fn say(&mut self, form: Form, operand: u16) {
        self.tokens.push((form, operand));
    }

    /// loop (pause; present s then exit 0 else nothing)
    fn watch(&mut self, s: u16) {
        self.say(Form::Loop, 0);
        self.say(Form::Sequence, 0);
        let first = self.fault != Fault::WatchTestsFirst;
        if first {
            self.say(Form::Pause, 0);
        }
        self.say(Form::Present, s);
        self.say(Form::Exit, 0);
        self.say(Form::Nothing, 0);
        if !first {
            self.say(Form::Pause, 0);
        }
    }

    /// The depth of an exit: one more for each abort that it leaves.
    fn depth(&self, depth: u16) -> u16 {
        let mut traps = depth + 1;
        let mut aborts = 0;
        for &abort in self.around.iter().rev() {
            if traps == 0 {
                break;
            }
            if abort { aborts += 1 } else { traps -= 1 }
        }
        match self.fault {
            Fault::DepthKept => depth,
            Fault::DepthRaisedOnce => depth + aborts.min(1),
            Fault::DepthAlwaysRaised => depth + self.around.iter().filter(|&&abort| abort).count() as u16,
            _ => depth + aborts,
        }
    }

    fn put(&mut self, p: &Statement) {
        match p.form {
            Form::Halt => {
                self.say(Form::Loop, 0);
                self.say(Form::Pause, 0);
            }
            Form::Sustain => {
                let parts = [(Form::Emit, p.operand), (Form::Pause, 0)];
                self.tokens.extend([(Form::Loop, 0), (Form::Sequence, 0)]);
                let turned = self.fault == Fault::SustainPausesFirst;
                self.tokens.extend([parts[turned as usize], parts[!turned as usize]]);
            }
            Form::Await => {
                self.say(Form::Trap, 0);
                self.watch(p.operand);
            }
            Form::Abort => {
                self.say(Form::Trap, 0);
                self.say(Form::Parallel, 0);
                if self.fault == Fault::WatchFirst {
                    self.watch(p.operand);
                }
                self.say(Form::Sequence, 0);
                self.say(Form::Suspend, p.operand);
                self.around.push(true);
                self.put(&p.parts[0]);
                self.around.pop();
                self.say(Form::Exit, 0);
                if self.fault != Fault::WatchFirst {
                    self.watch(p.operand);
                }
            }
            Form::Exit => self.say(Form::Exit, self.depth(p.operand)),
            form => {
                self.say(form, p.operand);
                self.around.extend(Some(false).filter(|_| form == Form::Trap));
                p.parts.iter().for_each(|part| self.put(part));
                self.around.truncate(self.around.len() - (form == Form::Trap) as usize);
            }
        }
    }
}
