//! What a text in the grammar says, statement by statement with its place: for the names and lines that the block does not have, and for words on a block that is refused. The library reads the
//! text; what is gathered here is compared with its bytes, and decides nothing.

use super::token::{tokens, Sort, Token};
use crate::layout::{Kind, BLOCK_MOST, HEAD, HEADER, HEADER_KIND, KINDS, SIGNALS};

/// A statement's record and the place of its word, or of its mark.
#[derive(Clone, Copy, Debug)]
pub struct Record {
    pub kind: &'static Kind,
    pub operand: usize,
    pub place: usize,
}

/// A name where it is declared: a signal by its number, or a trap.
#[derive(Clone, Copy, PartialEq, Eq, Debug)]
pub struct Declared<'a> {
    pub name: &'a [u8],
    pub place: usize,
    pub signal: Option<usize>,
}

/// A place that is open: where its last arm and its last basic statement begin among the records, the record that opened it, and whether a name ends with it.
#[derive(Clone, Copy)]
struct Level {
    arm: usize,
    basic: usize,
    record: usize,
    is_scope: bool,
}

/// What a name stands for where it comes next.
#[derive(Clone, Copy, PartialEq, Eq)]
enum Due {
    Nothing,
    Input,
    Output,
    /// The operand of a record.
    Operand(usize),
}

pub struct Source<'a> {
    pub version: usize,
    pub inputs: usize,
    pub outputs: usize,
    /// The signals in the order of their numbers.
    pub signals: Vec<Declared<'a>>,
    pub records: Vec<Record>,
    /// Every declaration that is in force at the end, the innermost last; of a whole text the inputs and outputs.
    pub around: Vec<Declared<'a>>,
    /// Every declaration before the end.
    pub declared: Vec<Declared<'a>>,
    /// Where the text becomes too large for a block, if it does: too many bytes or signals.
    pub too_large: Option<(usize, String)>,
    /// A name is declared where it is declared already.
    pub is_declared_again: bool,
    levels: Vec<Level>,
    due: Due,
}

impl<'a> Source<'a> {
    /// Follows a text that is in the grammar, or the front of one.
    pub fn of(text: &'a [u8]) -> Source<'a> {
        let outermost = Level { arm: 0, basic: 0, record: 0, is_scope: false };
        let mut source = Source {
            version: 0,
            inputs: 0,
            outputs: 0,
            signals: Vec::new(),
            records: Vec::new(),
            around: Vec::new(),
            declared: Vec::new(),
            too_large: None,
            is_declared_again: false,
            levels: vec![outermost],
            due: Due::Nothing,
        };
        for token in tokens(text) {
            match token.sort {
                Sort::Number => source.version = token.shown().parse().unwrap_or(0),
                Sort::Name => source.name(token),
                Sort::None => break,
                Sort::Keyword | Sort::Mark => source.sign(token),
            }
            source.look(token.place);
            // What follows changes nothing, and would only take time.
            if source.too_large.is_some() {
                break;
            }
        }
        source
    }

    /// Whether a limit is passed that the library tells without a place.
    fn look(&mut self, place: usize) {
        let bytes: usize = HEADER + self.records.iter().map(|record| record.kind.length()).sum::<usize>();
        self.too_large = if bytes > BLOCK_MOST {
            Some((place, format!("the block would have more than {} bytes", crate::walk::grouped(BLOCK_MOST as u64))))
        } else if self.signals.len() > SIGNALS {
            Some((place, format!("this is the {}th signal, and {} are the most", self.signals.len(), SIGNALS)))
        } else {
            None
        };
    }

    fn name(&mut self, token: Token<'a>) {
        match self.due {
            Due::Input | Due::Output => {
                self.inputs += usize::from(self.due == Due::Input);
                self.outputs += usize::from(self.due == Due::Output);
                self.declare(token, true);
            }
            Due::Operand(record) => {
                self.records[record].operand = match self.records[record].kind.name {
                    "local" => self.declare(token, true),
                    "trap" => {
                        self.declare(token, false);
                        0
                    }
                    "exit" => self.depth(token),
                    _ => self.find(token).and_then(|declared| declared.signal).unwrap_or(0),
                };
                self.due = Due::Nothing;
            }
            Due::Nothing => {}
        }
    }

    /// A declaration, with the number of a signal.
    fn declare(&mut self, token: Token<'a>, is_signal: bool) -> usize {
        let number = self.signals.len();
        self.is_declared_again |= self.find(token).is_some();
        let declared = Declared { name: token.bytes, place: token.place, signal: Some(number).filter(|_| is_signal) };
        self.signals.extend(Some(declared).filter(|_| is_signal));
        self.around.push(declared);
        self.declared.push(declared);
        number
    }

    fn find(&self, token: Token) -> Option<Declared<'a>> {
        self.around.iter().rev().find(|declared| declared.name == token.bytes).copied()
    }

    /// The traps between an exit and its own.
    fn depth(&self, token: Token) -> usize {
        self.around.iter().rev().take_while(|declared| declared.name != token.bytes).filter(|declared| declared.signal.is_none()).count()
    }

    fn sign(&mut self, token: Token) {
        match token.bytes {
            b"input" => self.due = Due::Input,
            b"output" => self.due = Due::Output,
            b";" if self.records.is_empty() => self.due = Due::Nothing,
            b";" => self.join("sequence", token, |level| level.basic),
            b"||" => self.join("parallel", token, |level| level.arm),
            b"[" | b"then" | b"in" => self.open(token),
            b"else" => self.next_part(),
            b"end" | b"]" => drop(self.close()),
            b"when" => {
                let suspend = self.close();
                self.due = Due::Operand(suspend);
            }
            _ => self.begin(token),
        }
    }

    /// A statement's first word. A signal's record is called a local.
    fn begin(&mut self, token: Token) {
        let word = token.shown();
        let name = if word == "signal" { "local" } else { &word };
        if let Some(kind) = KINDS.iter().find(|kind| kind.name == name) {
            self.top().basic = self.records.len();
            self.records.push(Record { kind, operand: 0, place: token.place });
            self.due = Due::Operand(self.records.len() - 1);
            if matches!(name, "loop" | "suspend") {
                self.open(token);
            }
        }
    }

    fn top(&mut self) -> &mut Level {
        self.levels.last_mut().expect("the outermost level is never closed")
    }

    /// A place opens: behind `then` and `in` that of the statement which waits for it, else that of a bracket or of the record that was just put.
    fn open(&mut self, token: Token) {
        let record = self.records.len().saturating_sub(1);
        if token.is("[") {
            self.top().basic = self.records.len();
        }
        let is_scope = token.is("in");
        let begin = self.records.len();
        self.levels.push(Level { arm: begin, basic: begin, record, is_scope });
        self.due = Due::Nothing;
    }

    /// A place closes; the record that opened it is given.
    fn close(&mut self) -> usize {
        if self.levels.len() == 1 {
            return 0;
        }
        let level = self.levels.pop().expect("there are two");
        if level.is_scope {
            self.around.pop();
        }
        level.record
    }

    fn next_part(&mut self) {
        let begin = self.records.len();
        let top = self.top();
        top.arm = begin;
        top.basic = begin;
    }

    /// A join's record stands before its first part. What is open around begins further left, so nothing else moves.
    fn join(&mut self, name: &str, token: Token, first: fn(&Level) -> usize) {
        if let Some(kind) = KINDS.iter().find(|kind| kind.name == name) {
            let at = first(self.top());
            self.records.insert(at, Record { kind, operand: 0, place: token.place });
            let begin = self.records.len();
            let top = self.top();
            top.basic = begin;
            if name == "parallel" {
                top.arm = begin;
            }
        }
    }

    /// The block's bytes, as far as they can be said; none of a text that is too large.
    pub fn bytes(&self) -> Vec<u8> {
        if self.too_large.is_some() {
            return Vec::new();
        }
        let locals = self.signals.len() - self.inputs - self.outputs;
        let mut bytes = Vec::new();
        let mut put = |number: usize| bytes.extend_from_slice(&(number as u16).to_le_bytes());
        [HEADER, HEADER_KIND.into(), 1, self.version, self.inputs, self.outputs, locals].into_iter().for_each(&mut put);
        for record in &self.records {
            put(record.kind.length());
            put(record.kind.number.into());
            if record.kind.length() > HEAD {
                put(record.operand);
            }
        }
        bytes
    }

    /// The place in the text of the record at an offset of the block.
    pub fn place_at(&self, offset: usize) -> Option<usize> {
        let mut at = HEADER;
        for record in &self.records {
            if at == offset {
                return Some(record.place);
            }
            at += record.kind.length();
        }
        None
    }
}

#[cfg(test)]
mod tests {
    use super::*;

    /// Document 01's own bytes, and the places of its four statements.
    #[test]
    fn the_documents_block() {
        let source = Source::of(b"version 7; input I; output O; suspend pause; emit O when I");
        let block = [14, 0, 1, 0, 1, 0, 7, 0, 1, 0, 1, 0, 0, 0, 6, 0, 20, 0, 0, 0, 4, 0, 21, 0, 4, 0, 17, 0, 6, 0, 18, 0, 1, 0];
        assert_eq!(source.bytes(), block);
        assert_eq!([14, 20, 24, 28, 22].map(|offset| source.place_at(offset)), [Some(30), Some(43), Some(38), Some(45), None]);
    }

    fn kinds(text: &str) -> Vec<(&'static str, usize)> {
        Source::of(format!("version 1; output A; {}", text).as_bytes()).records.iter().map(|record| (record.kind.name, record.operand)).collect()
    }

    #[test]
    fn joins_brackets_and_depths() {
        let (seq, par, no, wait) = (("sequence", 0), ("parallel", 0), ("nothing", 0), ("pause", 0));
        assert_eq!(kinds("nothing; pause; nothing || pause"), [par, seq, no, seq, wait, no, wait]);
        assert_eq!(kinds("[nothing; pause]; nothing || [[pause]]"), [par, seq, seq, no, wait, no, wait]);
        assert_eq!(kinds("trap T in trap U in exit T || exit U end; exit T end"), [("trap", 0), seq, ("trap", 0), par, ("exit", 1), ("exit", 0), ("exit", 0)]);
        assert_eq!(kinds("signal B in nothing end; signal B in emit B; emit A end"), [seq, ("local", 1), no, ("local", 2), seq, ("emit", 2), ("emit", 0)]);
        assert_eq!(kinds("present A then pause; nothing else nothing || pause end; suspend loop pause end when A; pause"), [
            seq, ("present", 0), seq, wait, no, par, no, wait, seq, ("suspend", 0), ("loop", 0), wait, wait
        ]);
    }

    #[test]
    fn what_is_around() {
        let source = Source::of(b"version 1; input I; trap T in signal S in nothing end; signal U in emit ");
        let names: Vec<_> = source.around.iter().map(|declared| (String::from_utf8_lossy(declared.name).into_owned(), declared.signal)).collect();
        assert_eq!(names, [("I".to_string(), Some(0)), ("T".to_string(), None), ("U".to_string(), Some(2))]);
        assert_eq!((source.declared.len(), source.too_large.is_none()), (4, true));
    }
}
