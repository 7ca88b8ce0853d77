//! Blocks as kernel text: a reader that goes down the grammar, and the writer.

use crate::block::{decode, encode_tokens, Block, Form, Header, Statement, Token};
use crate::fault::Fault;
use crate::state::{Answer, ROOM};

pub const TEXT: u16 = 15;
const LIMIT: u16 = 4;

/// So many places may be open at once; no block has as many statements.
const OPEN: usize = 1024;

/// The words that are no names.
pub const KEYWORDS: [&str; 17] = [
    "nothing", "pause", "emit", "present", "then", "else", "end", "suspend", "when", "loop", "trap", "in", "exit", "signal", "version",
    "input", "output",
];

/// One token of a text: a keyword or mark as it is written, a name, a number; or bytes that are none.
#[derive(Clone, Copy, PartialEq, Eq, Debug)]
pub enum Word<'a> {
    Key(&'static str),
    Mark(&'static str),
    Name(&'a [u8]),
    Number(u32),
    Wrong,
    End,
}

/// Why a text is not read: 15 at a place, or 4 at once.
#[derive(Clone, Copy, PartialEq, Eq, Debug)]
enum Stop {
    Text(usize),
    Open,
}

/// What a name stands for.
#[derive(Clone, Copy, PartialEq, Eq, Debug)]
enum Thing {
    Signal(usize),
    Trap,
}

/// The next token from a place on: where it begins and ends.
pub fn next_word(text: &[u8], at: usize, fault: Fault) -> (Word<'_>, usize, usize) {
    let space = |byte: &u8| [9, 10, 13, 32].contains(byte);
    let from = at + text[at..].iter().take_while(|byte| space(byte)).count();
    let rest = &text[from..];
    let word = rest.iter().take_while(|byte| byte.is_ascii_alphanumeric()).count();
    if rest.is_empty() {
        return (Word::End, from, from);
    }
    if word > 0 {
        return (word_of(&rest[..word], fault), from, from + word);
    }
    for mark in [";", ",", "||", "[", "]"] {
        if rest.starts_with(mark.as_bytes()) {
            return (Word::Mark(mark), from, from + mark.len());
        }
    }
    (Word::Wrong, from, from + 1)
}

fn word_of(word: &[u8], fault: Fault) -> Word<'_> {
    if let Some(key) = KEYWORDS.iter().find(|key| key.as_bytes() == word) {
        return Word::Key(key);
    }
    let longest = match fault {
        Fault::NameShort => 15,
        Fault::NameLong => 17,
        _ => 16,
    };
    if word[0].is_ascii_alphabetic() {
        return if word.len() <= longest { Word::Name(word) } else { Word::Wrong };
    }
    let digits = word.iter().all(|byte| byte.is_ascii_digit());
    let value = word.iter().take(9).fold(0u32, |value, byte| value * 10 + byte.wrapping_sub(b'0') as u32 % 10);
    let most = if fault == Fault::VersionBeyond { 99_999 } else { 65_535 };
    if digits && word.len() <= 5 && value <= most { Word::Number(value) } else { Word::Wrong }
}

struct Reader<'a> {
    text: &'a [u8],
    at: usize,
    /// What is declared around, the innermost last.
    names: Vec<(&'a [u8], Thing)>,
    signals: usize,
    open: usize,
    fault: Fault,
}

/// A statement as tokens in preorder; signals by their numbers, which may pass what a record holds.
type Tree = Vec<(Form, usize)>;

impl<'a> Reader<'a> {
    fn peek(&self) -> Word<'a> {
        next_word(self.text, self.at, self.fault).0
    }

    /// The token that is due is not there, or must not be: its first byte.
    fn wrong<T>(&self) -> Result<T, Stop> {
        let (_, from, end) = next_word(self.text, self.at, self.fault);
        Err(Stop::Text(if self.fault == Fault::PlaceBehind { end } else { from }))
    }

    fn step(&mut self) {
        self.at = next_word(self.text, self.at, self.fault).2;
    }

    fn take(&mut self, due: Word) -> Result<(), Stop> {
        if self.peek() != due {
            return self.wrong();
        }
        self.step();
        Ok(())
    }

    /// Whether this token is next; it is then taken.
    fn has(&mut self, due: Word) -> bool {
        let there = self.peek() == due;
        if there {
            self.step();
        }
        there
    }

    /// A name that is declared here.
    fn declare(&mut self, thing: Thing) -> Result<(), Stop> {
        let name = match self.peek() {
            Word::Name(name) => name,
            _ => return self.wrong(),
        };
        let again = match self.fault {
            Fault::NamesShadowed => false,
            Fault::InnermostCompared => self.names.last().map_or(false, |last| last.0 == name),
            Fault::TrapsApart => self.names.iter().any(|old| old.0 == name && (old.1 == Thing::Trap) == (thing == Thing::Trap)),
            _ => self.names.iter().any(|old| old.0 == name),
        };
        if again {
            return self.wrong();
        }
        self.step();
        self.names.push((name, thing));
        Ok(())
    }

    /// A declared signal's number.
    fn signal(&mut self) -> Result<usize, Stop> {
        let name = self.peek();
        let found = self.names.iter().rev().find(|old| Word::Name(old.0) == name);
        match found {
            Some(&(_, Thing::Signal(n))) => {
                self.step();
                Ok(n)
            }
            Some(_) if self.fault == Fault::TrapEmitted => {
                self.step();
                Ok(0)
            }
            _ => self.wrong(),
        }
    }

    /// The depth of an exit: the traps between it and its own.
    fn trap(&mut self) -> Result<usize, Stop> {
        let name = self.peek();
        let at = self.names.iter().rposition(|old| Word::Name(old.0) == name);
        match at.map(|at| (at, self.names[at].1)) {
            Some((at, Thing::Trap)) => {
                self.step();
                let between = self.names[at + 1..].iter().filter(|old| old.1 == Thing::Trap || self.fault == Fault::ScopesCounted);
                Ok(between.count())
            }
            _ => self.wrong(),
        }
    }

    /// Names after `input` or `output`.
    fn declared(&mut self, word: &'static str) -> Result<usize, Stop> {
        if !self.has(Word::Key(word)) {
            return Ok(0);
        }
        let before = self.signals;
        loop {
            self.declare(Thing::Signal(self.signals))?;
            self.signals += 1;
            if !self.has(Word::Mark(",")) {
                break;
            }
        }
        self.take(Word::Mark(";"))?;
        Ok(self.signals - before)
    }

    /// Version, inputs, outputs and the statement, and nothing after it.
    fn whole(&mut self) -> Result<(u32, usize, usize, Tree), Stop> {
        self.take(Word::Key("version"))?;
        let version = match self.peek() {
            Word::Number(version) => version,
            _ => return self.wrong(),
        };
        self.step();
        self.take(Word::Mark(";"))?;
        let inputs = self.declared("input")?;
        let outputs = self.declared("output")?;
        let tree = self.statement()?;
        self.take(Word::End)?;
        Ok((version, inputs, outputs, tree))
    }

    fn statement(&mut self) -> Result<Tree, Stop> {
        // Brackets at one place are counted, for there may be any number of them.
        let mut brackets = 0;
        while self.has(Word::Mark("[")) {
            brackets += 1;
        }
        let first = self.basic()?;
        let mut tree = self.after(first)?;
        for _ in 0..brackets {
            self.take(Word::Mark("]"))?;
            tree = self.after(tree)?;
        }
        Ok(tree)
    }

    /// The rest of a statement whose first basic one is read: a sequence binds tighter than a parallel, and both to the right.
    fn after(&mut self, first: Tree) -> Result<Tree, Stop> {
        if self.fault == Fault::MarksTurned {
            return self.chain(first, &[("||", Form::Parallel), (";", Form::Sequence)]);
        }
        self.chain(first, &[(";", Form::Sequence), ("||", Form::Parallel)])
    }

    fn chain(&mut self, first: Tree, marks: &[(&'static str, Form)]) -> Result<Tree, Stop> {
        let (mark, form) = marks[marks.len() - 1];
        let mut parts = vec![self.below(first, marks)?];
        while self.has(Word::Mark(mark)) {
            let next = self.opened_basic()?;
            parts.push(self.below(next, marks)?);
        }
        Ok(self.joined(form, parts))
    }

    fn below(&mut self, first: Tree, marks: &[(&'static str, Form)]) -> Result<Tree, Stop> {
        if marks.len() == 1 { Ok(first) } else { self.chain(first, &marks[..marks.len() - 1]) }
    }

    fn joined(&self, form: Form, parts: Vec<Tree>) -> Tree {
        let join = |one: Tree, two: Tree| [&[(form, 0)][..], &one[..], &two[..]].concat();
        if self.fault == Fault::JoinedToTheLeft {
            return parts.into_iter().reduce(join).unwrap_or_default();
        }
        // To the right: a record before each part but the last, so that a long chain is not copied again and again.
        let last = parts.len() - 1;
        parts.into_iter().enumerate().flat_map(|(n, part)| (if n < last { Some((form, 0)) } else { None }).into_iter().chain(part)).collect()
    }

    /// A basic statement behind a mark; brackets there open a place of their own.
    fn opened_basic(&mut self) -> Result<Tree, Stop> {
        if self.peek() != Word::Mark("[") {
            return self.basic();
        }
        self.opens()?;
        self.step();
        let tree = self.statement()?;
        self.take(Word::Mark("]"))?;
        self.open -= 1;
        Ok(tree)
    }

    /// One more place is open: over 1,024 the block is too large whatever follows. Where a name comes first the place opens behind it.
    fn opens(&mut self) -> Result<(), Stop> {
        self.open += 1;
        if self.open > OPEN { Err(Stop::Open) } else { Ok(()) }
    }

    /// A statement that is no bracket.
    fn basic(&mut self) -> Result<Tree, Stop> {
        let key = match self.peek() {
            Word::Key(key) => key,
            _ => return self.wrong(),
        };
        let form = match key {
            "nothing" => Form::Nothing,
            "pause" => Form::Pause,
            "emit" => Form::Emit,
            "exit" => Form::Exit,
            "present" => Form::Present,
            "suspend" => Form::Suspend,
            "loop" => Form::Loop,
            "trap" => Form::Trap,
            "signal" => Form::Local,
            _ => return self.wrong(),
        };
        if form == Form::Suspend || form == Form::Loop {
            self.opens()?;
        }
        self.step();
        let tree = self.rest_of(form)?;
        self.open -= (form.parts() > 0) as usize;
        Ok(tree)
    }

    fn rest_of(&mut self, form: Form) -> Result<Tree, Stop> {
        let held = |operand: usize, parts: &[Tree]| [vec![(form, operand)], parts.concat()].concat();
        match form {
            Form::Emit => Ok(vec![(form, self.signal()?)]),
            Form::Exit => Ok(vec![(form, self.trap()?)]),
            Form::Present => {
                let signal = self.signal()?;
                self.opens()?;
                self.take(Word::Key("then"))?;
                let then = self.statement()?;
                self.take(Word::Key("else"))?;
                let other = self.statement()?;
                self.take(Word::Key("end"))?;
                Ok(held(signal, &[then, other]))
            }
            Form::Suspend => {
                let body = self.statement()?;
                self.take(Word::Key("when"))?;
                Ok(held(self.signal()?, &[body]))
            }
            Form::Loop => {
                let body = self.statement()?;
                self.take(Word::Key("end"))?;
                Ok(held(0, &[body]))
            }
            Form::Trap | Form::Local => self.scope(form),
            _ => Ok(vec![(form, 0)]),
        }
    }

    /// A trap or a local: its name holds in its body alone.
    fn scope(&mut self, form: Form) -> Result<Tree, Stop> {
        let number = if form == Form::Local { self.signals } else { 0 };
        self.declare(if form == Form::Local { Thing::Signal(number) } else { Thing::Trap })?;
        self.signals += (form == Form::Local) as usize;
        self.opens()?;
        self.take(Word::Key("in"))?;
        let body = self.statement()?;
        self.take(Word::Key("end"))?;
        if self.fault != Fault::ScopeNeverLeft {
            self.names.pop();
        }
        Ok([vec![(form, number)], body].concat())
    }
}

/// The block that a text stands for, if it may have one: version, inputs, outputs, statements.
fn meant(text: &[u8], fault: Fault) -> Result<Option<Vec<u8>>, usize> {
    let mut reader = Reader { text, at: 0, names: Vec::new(), signals: 0, open: 0, fault };
    let (version, inputs, outputs, tree) = match reader.whole() {
        Ok(whole) => whole,
        Err(Stop::Open) => return Ok(None),
        Err(Stop::Text(place)) => return Err(place),
    };
    let locals = reader.signals - inputs - outputs;
    if reader.signals > 64 {
        return Ok(None);
    }
    let header = Header { version: version as u16, inputs: inputs as u16, outputs: outputs as u16, locals: locals as u16 };
    let tokens: Vec<Token> = tree.into_iter().map(|(form, operand)| (form, operand as u16)).collect();
    Ok(Some(encode_tokens(header, &tokens)))
}

/// The call that reads: 15, then 1 to 8 on the block read, then 12; else the block's bytes and their count.
pub fn read_text(text: &[u8], out: &mut [u8], fault: Fault) -> (Answer, usize) {
    let bytes = match meant(text, fault) {
        Err(place) => return (Answer { place, ..Answer::refused(TEXT) }, 0),
        Ok(None) => return (Answer::refused(LIMIT), 0),
        Ok(Some(bytes)) => bytes,
    };
    if let Err(refusal) = decode(&bytes, Fault::None) {
        return (Answer { place: refusal.place, ..Answer::refused(refusal.number) }, 0);
    }
    written(&bytes, out, fault)
}

/// The call that writes: 1 to 8, then 12; else the text's bytes and their count.
pub fn write_text(block: &[u8], out: &mut [u8], fault: Fault) -> (Answer, usize) {
    match decode(block, Fault::None) {
        Err(refusal) => (Answer { place: refusal.place, ..Answer::refused(refusal.number) }, 0),
        Ok(read) => written(text_of(&read, fault).as_bytes(), out, fault),
    }
}

fn written(bytes: &[u8], out: &mut [u8], fault: Fault) -> (Answer, usize) {
    let short = match fault {
        Fault::TextRoomLow | Fault::WrittenRoomLow => out.len() + 1 < bytes.len(),
        Fault::TextRoomHigh | Fault::WrittenRoomHigh => out.len() < bytes.len() + 1,
        _ => out.len() < bytes.len(),
    };
    if short {
        return (Answer::refused(ROOM), 0);
    }
    let size = bytes.len().min(out.len());
    out[..size].copy_from_slice(&bytes[..size]);
    (Answer::default(), size)
}

/// The text of a block: names from numbers, brackets only where they are needed, a line for each statement.
pub fn text_of(block: &Block, fault: Fault) -> String {
    let Header { version, inputs, outputs, .. } = block.header;
    let mut lines = vec![format!("version {version};")];
    for (word, letter, from, count) in [("input", 'I', 0, inputs), ("output", 'O', inputs, outputs)] {
        let names: Vec<String> = (from..from + count).map(|n| format!("{letter}{n}")).collect();
        if count > 0 {
            lines.push(format!("{word} {};", names.join(", ")));
        }
    }
    let mut writer = Writer { lines, inputs, outputs, fault };
    writer.put(&block.root, 0, 0);
    writer.lines.join("\n") + "\n"
}

struct Writer {
    lines: Vec<String>,
    inputs: u16,
    outputs: u16,
    fault: Fault,
}

impl Writer {
    fn name(&self, n: u16) -> String {
        let letter = if n < self.inputs { 'I' } else if n < self.inputs + self.outputs { 'O' } else { 'S' };
        format!("{letter}{n}")
    }

    fn line(&mut self, indent: usize, words: &str) {
        self.lines.push(format!("{}{words}", "  ".repeat(indent)));
    }

    /// A part of a join; one that binds no tighter than its place stands in brackets.
    fn part(&mut self, p: &Statement, bare: bool, indent: usize, traps: usize) {
        if bare {
            return self.put(p, indent, traps);
        }
        self.line(indent, "[");
        self.put(p, indent + 1, traps);
        self.line(indent, "]");
    }

    fn put(&mut self, p: &Statement, indent: usize, traps: usize) {
        let joins = |n: usize, form: Form| p.parts[n].form == form;
        match p.form {
            Form::Nothing => self.line(indent, "nothing"),
            Form::Pause => self.line(indent, "pause"),
            Form::Emit => self.line(indent, &format!("emit {}", self.name(p.operand))),
            Form::Exit => {
                let to = traps as u16 - 1 - p.operand + (self.fault == Fault::TrapOneOff) as u16;
                self.line(indent, &format!("exit T{to}"));
            }
            Form::Sequence => {
                let bare = self.fault == Fault::FirstWithoutBrackets && joins(0, Form::Sequence);
                self.part(&p.parts[0], bare || !joins(0, Form::Sequence) && !joins(0, Form::Parallel), indent, traps);
                if let Some(last) = self.lines.last_mut() {
                    last.push(';');
                }
                let needless = self.fault == Fault::NeedlessBrackets && joins(1, Form::Sequence);
                self.part(&p.parts[1], !joins(1, Form::Parallel) && !needless, indent, traps);
            }
            Form::Parallel => {
                self.part(&p.parts[0], !joins(0, Form::Parallel), indent, traps);
                self.line(indent, "||");
                self.part(&p.parts[1], true, indent, traps);
            }
            _ => self.put_around(p, indent, traps),
        }
    }

    fn put_around(&mut self, p: &Statement, indent: usize, traps: usize) {
        let (first, last, inner) = match p.form {
            Form::Present => (format!("present {} then", self.name(p.operand)), "end".to_string(), traps),
            Form::Suspend => ("suspend".to_string(), format!("when {}", self.name(p.operand)), traps),
            Form::Trap => (format!("trap T{traps} in"), "end".to_string(), traps + 1),
            Form::Local => (format!("signal {} in", self.name(p.operand)), "end".to_string(), traps),
            _ => ("loop".to_string(), "end".to_string(), traps),
        };
        self.line(indent, &first);
        self.put(&p.parts[0], indent + 1, inner);
        if p.form == Form::Present {
            self.line(indent, "else");
            self.put(&p.parts[1], indent + 1, traps);
        }
        self.line(indent, &last);
    }
}
