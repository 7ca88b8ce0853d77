//! Texts beside a second way to read them: what may still follow, kept as all the stacks of symbols that are due. And the calls on texts.

use std::io::{self, Read, Write};

use crate::block::{decode, encode_tokens, Block, Form, Header, Token};
use crate::cases::{some_edge_block, spoil, with_version, Call, Case};
use crate::chance::Chance;
use crate::edge_calls::{bad_blocks, EdgeCall};
use crate::edges::block_of;
use crate::fault::Fault;
use crate::generate::{some_block, Wish};
use crate::kernel::{next_word, read_text, text_of, Word, KEYWORDS, TEXT};
use crate::mutate::some_mixed_block;

/// What is due: a token, a name that is declared or used, the end of a scope, or a part of the grammar.
#[derive(Clone, Copy, PartialEq, Eq, Debug)]
enum Due {
    Key(&'static str),
    Mark(&'static str),
    Number,
    DeclareSignal,
    DeclareTrap,
    Signal,
    Trap,
    Leave,
    Names,
    Statement,
    Sequence,
    Basic,
}

/// The symbols that are due, the next one last, and the names around with whether each is a trap's.
type Way<'a> = (Vec<Due>, Vec<(&'a [u8], bool)>);

/// The ways in which a text may go on from its beginning.
fn beginning<'a>() -> Vec<Way<'a>> {
    let header = [Due::Key("version"), Due::Number, Due::Mark(";")];
    let inputs = [Due::Key("input"), Due::Names, Due::Mark(";")];
    let outputs = [Due::Key("output"), Due::Names, Due::Mark(";")];
    let mut ways = Vec::new();
    for with in 0..4 {
        let mut due = header.to_vec();
        due.extend(inputs.iter().filter(|_| with & 1 == 1));
        due.extend(outputs.iter().filter(|_| with & 2 == 2));
        due.push(Due::Statement);
        due.reverse();
        ways.push((due, Vec::new()));
    }
    ways
}

/// What a part of the grammar may be, the first symbol first.
fn instead(due: Due) -> Vec<Vec<Due>> {
    use self::Due::{Basic, DeclareSignal, DeclareTrap, Key, Leave, Mark, Names, Sequence, Signal, Statement, Trap};
    match due {
        Names => vec![vec![DeclareSignal], vec![DeclareSignal, Mark(","), Names]],
        Statement => vec![vec![Sequence], vec![Sequence, Mark("||"), Statement]],
        Sequence => vec![vec![Basic], vec![Basic, Mark(";"), Sequence]],
        Basic => vec![
            vec![Key("nothing")],
            vec![Key("pause")],
            vec![Key("emit"), Signal],
            vec![Key("exit"), Trap],
            vec![Key("present"), Signal, Key("then"), Statement, Key("else"), Statement, Key("end")],
            vec![Key("suspend"), Statement, Key("when"), Signal],
            vec![Key("loop"), Statement, Key("end")],
            vec![Key("trap"), DeclareTrap, Key("in"), Statement, Key("end"), Leave],
            vec![Key("signal"), DeclareSignal, Key("in"), Statement, Key("end"), Leave],
            vec![Mark("["), Statement, Mark("]")],
        ],
        _ => Vec::new(),
    }
}

/// The ways that are left after a token; none where no text of the grammar with its names in order so far goes on so.
fn after<'a>(ways: &[Way<'a>], word: Word<'a>) -> Vec<Way<'a>> {
    let mut left = Vec::new();
    let mut open: Vec<Way> = ways.to_vec();
    while let Some((mut due, mut names)) = open.pop() {
        let first = match due.pop() {
            Some(first) => first,
            None => continue,
        };
        let others = instead(first);
        for other in &others {
            let longer = due.iter().copied().chain(other.iter().rev().copied()).collect();
            open.push((longer, names.clone()));
        }
        let known = |name: &[u8], trap: bool| names.iter().any(|old| old.0 == name && old.1 == trap);
        let fits = match (first, word) {
            (Due::Key(one), Word::Key(other)) | (Due::Mark(one), Word::Mark(other)) => one == other,
            (Due::Number, Word::Number(_)) => true,
            (Due::Signal, Word::Name(name)) => known(name, false),
            (Due::Trap, Word::Name(name)) => known(name, true),
            (Due::DeclareSignal, Word::Name(name)) | (Due::DeclareTrap, Word::Name(name)) => !known(name, true) && !known(name, false),
            (Due::Leave, _) => {
                names.pop();
                open.push((due, names));
                continue;
            }
            _ => false,
        };
        if let (true, Word::Name(name), true) = (fits, word, matches!(first, Due::DeclareSignal | Due::DeclareTrap)) {
            names.push((name, first == Due::DeclareTrap));
        }
        if fits {
            left.push((due, names));
        }
    }
    left
}

/// Whether a text may end here.
fn ends(ways: &[Way]) -> bool {
    ways.iter().any(|way| way.0.iter().all(|due| *due == Due::Leave))
}

/// The tokens of a text with where each begins and ends.
fn words(text: &str) -> Vec<(Word<'_>, usize, usize)> {
    let mut all = Vec::new();
    loop {
        let at = all.last().map_or(0, |&(_, _, end)| end);
        let next = next_word(text.as_bytes(), at, Fault::None);
        if next.0 == Word::End {
            return all;
        }
        all.push(next);
    }
}

/// The tokens that are tried: all keywords and marks, a number, two names, and something that is no token.
fn tried() -> Vec<&'static str> {
    KEYWORDS.iter().copied().chain([";", ",", "||", "[", "]", "7", "A", "B", "|", "abcdefghijklmnopq"]).collect()
}

struct Counts {
    fault: Fault,
    texts: usize,
    good: usize,
    failures: Vec<String>,
}

impl Counts {
    /// A text: the reader gives 15 exactly at this place, or goes past it.
    fn text(&mut self, text: &str, wanted: Option<usize>) {
        if self.fault != Fault::None && !self.failures.is_empty() {
            return;
        }
        let (answer, _) = read_text(text.as_bytes(), &mut [0; 3086], self.fault);
        let got = if answer.number == TEXT { Some(answer.place) } else { None };
        self.texts += 1;
        self.good += wanted.is_none() as usize;
        if got != wanted {
            self.failures.push(format!("{text:?}: {got:?}, not {wanted:?}"));
        }
    }

    /// Every text that begins so and goes on for so many tokens, each as far as some text of the grammar goes on so.
    fn every(&mut self, begun: &str, more: usize) {
        let ways = words(begun).into_iter().fold(beginning(), |ways, (word, _, _)| after(&ways, word));
        self.every_from(begun.to_string(), &ways, more);
    }

    fn every_from(&mut self, begun: String, ways: &[Way], more: usize) {
        let wanted = if ends(ways) { None } else { Some(begun.len()) };
        self.text(&begun, wanted);
        if more == 0 {
            return;
        }
        for token in tried() {
            let (word, _, _) = next_word(token.as_bytes(), 0, Fault::None);
            let next = after(ways, word);
            let longer = format!("{begun} {token}");
            if next.is_empty() {
                self.text(&longer, Some(begun.len() + 1));
                self.text(&format!("{longer} nothing"), Some(begun.len() + 1));
            } else {
                self.every_from(longer, &next, more - 1);
            }
        }
    }

    /// A block spelt in some way and read back, and its own text read back.
    fn back(&mut self, bytes: &[u8], block: &Block, chance: &mut Chance) {
        for text in [some_text(block, chance), text_of(block, self.fault)] {
            if self.fault != Fault::None && !self.failures.is_empty() {
                return;
            }
            self.texts += 1;
            self.good += 1;
            let mut out = vec![0; bytes.len()];
            let (answer, size) = read_text(text.as_bytes(), &mut out, self.fault);
            if answer.number != 0 || out[..size] != bytes[..] {
                self.failures.push(format!("{text:?}: {answer:?}"));
            }
        }
    }

    fn random(&mut self, count: usize, chance: &mut Chance) {
        for n in 0..count {
            let (mut bytes, block) = if n % 20 == 0 {
                let wish = Wish::wide(chance);
                some_block(chance, wish)
            } else {
                some_mixed_block(chance, 1, 40)
            };
            let block = with_version(&mut bytes, block, chance);
            self.back(&bytes, &block, chance);
        }
    }
}

/// Reads a text from standard input and writes the block that it is; says why where there is none.
pub fn print_block() -> bool {
    let (mut text, mut bytes) = (Vec::new(), [0; 3086]);
    let (answer, size) = match io::stdin().read_to_end(&mut text) {
        Ok(_) => read_text(&text, &mut bytes, Fault::None),
        Err(_) => return false,
    };
    if answer.number != 0 {
        eprintln!("refused with {} at {}", answer.number, answer.place);
        return false;
    }
    io::stdout().write_all(&bytes[..size]).is_ok()
}

/// Every short text, and random ones read back; false if a place or a block differs.
pub fn print_text(more: usize, count: usize, seed: u64) -> bool {
    let all = |fault: Fault, more: usize, count: usize| {
        let mut counts = Counts { fault, texts: 0, good: 0, failures: Vec::new() };
        counts.every("", more + 3);
        counts.every("version 7 ; output A ;", more);
        counts.every("version 7 ; output A ; trap B in", more.saturating_sub(1));
        counts.random(count, &mut Chance::new(seed));
        counts
    };
    let mut counts = all(Fault::None, more, count);
    counts.failures.sort_by_key(|failure| failure.len());
    counts.failures.iter().take(20).for_each(|failure| println!("failed text: {failure}"));
    let large = large_texts();
    let wrong = large.iter().filter(|(text, wanted)| {
        let (answer, _) = read_text(text.as_bytes(), &mut [0; 3086], Fault::None);
        (answer.number, answer.place) != *wanted
    });
    let wrong = wrong.inspect(|(text, wanted)| println!("failed text of {} bytes: not {wanted:?}", text.len())).count();
    println!("{} texts, {} of them good, {} failed; {} large ones, {wrong} failed", counts.texts, counts.good, counts.failures.len(), large.len());
    counts.failures.is_empty() && wrong == 0
}

/// Texts at the limits: their number and place.
fn large_texts() -> Vec<(String, (u16, usize))> {
    let begun = "version 1; output A; ";
    let names = |count: usize| (0..count).map(|n| format!("N{n}")).collect::<Vec<_>>().join(", ");
    let looped = |count: usize, body: &str| format!("{begun}{}{body}{}", "loop ".repeat(count), " end".repeat(count));
    let held = |count: usize| format!("{begun}{}pause{}", "pause; [ ".repeat(count), "]".repeat(count));
    let bracketed = |count: usize| format!("{begun}{}nothing{}", "[".repeat(count), "]".repeat(count));
    vec![
        (bracketed(100_000), (0, 0)),
        (format!("{}]", bracketed(5000)), (TEXT, begun.len() + 10_007)),
        (format!("{begun}{}nothing", "nothing; ".repeat(63)), (0, 0)),
        // 64 sequences in each other: the first part of the last is the 65th on its path.
        (format!("{begun}{}nothing", "nothing; ".repeat(64)), (4, 14 + 8 * 63 + 4)),
        (format!("{begun}{}nothing", "nothing || ".repeat(64)), (4, 14 + 8 * 63 + 4)),
        (format!("{begun}{}nothing", "nothing; ".repeat(100_000)), (4, 0)),
        (looped(62, "pause"), (0, 0)),
        (looped(64, "pause"), (4, 0xe + 4 * 64)),
        (looped(1024, "pause"), (4, 0)),
        (format!("{begun}{} ?", "loop ".repeat(1024)), (TEXT, begun.len() + 5121)),
        (format!("{begun}{} ?", "loop ".repeat(1025)), (4, 0)),
        // A place behind a name opens with the name, where that is in order.
        (format!("{begun}{}trap ?", "loop ".repeat(1024)), (TEXT, begun.len() + 5 * 1024 + 5)),
        (format!("{begun}{}trap T ?", "loop ".repeat(1024)), (4, 0)),
        (format!("{begun}{}present S ?", "loop ".repeat(1024)), (TEXT, begun.len() + 5 * 1024 + 8)),
        (format!("{begun}{}?", "loop [[".repeat(1024)), (TEXT, begun.len() + 7 * 1024)),
        (format!("{begun}{}?", "loop [[".repeat(1025)), (4, 0)),
        (held(1024), (4, 0)),
        (format!("{begun}{}?", "pause; [ ".repeat(1024)), (TEXT, begun.len() + 9 * 1024)),
        (format!("{begun}{}?", "pause; [ ".repeat(1025)), (4, 0)),
        (format!("version 1; input {}; nothing", names(64)), (0, 0)),
        (format!("version 1; input {}; nothing", names(65)), (4, 0)),
        (format!("version 1; input {}; nothing nothing", names(65)), (TEXT, 27 + names(65).len())),
    ]
}

/// A block as some text: names of any length, needless brackets, spaces of any kind.
fn some_text(block: &Block, chance: &mut Chance) -> String {
    let Header { version, inputs, outputs, .. } = block.header;
    let mut speller = Speller { tokens: block.root.tokens(), at: 0, names: Vec::new(), traps: Vec::new(), words: Vec::new() };
    let zeros = if version < 1000 && chance.percent(20) { "0" } else { "" };
    speller.words.extend(["version".to_string(), format!("{zeros}{version}"), ";".to_string()]);
    for (word, count) in [("input", inputs), ("output", outputs)] {
        for n in 0..count {
            speller.words.push(if n == 0 { word.to_string() } else { ",".to_string() });
            let name = speller.new_name(chance);
            speller.names.push(name.clone());
            speller.words.push(name);
        }
        speller.words.extend(Some(";".to_string()).filter(|_| count > 0));
    }
    speller.spell(0, chance);
    let gap = |chance: &mut Chance| chance.pick(&[" ", " ", " ", "\n", "\t", "\r\n", "   "]);
    let mut text = String::new();
    for word in &speller.words {
        let wordy = |c: Option<char>| c.map_or(false, |c| c.is_ascii_alphanumeric());
        let apart = wordy(text.chars().last()) && wordy(word.chars().next());
        if apart || chance.percent(60) {
            text += gap(chance);
        }
        text += word;
    }
    if chance.percent(50) {
        text += gap(chance);
    }
    text
}

struct Speller {
    tokens: Vec<Token>,
    at: usize,
    /// The names of signals by their numbers, empty out of scope, and of the traps around.
    names: Vec<String>,
    traps: Vec<String>,
    words: Vec<String>,
}

impl Speller {
    fn new_name(&self, chance: &mut Chance) -> String {
        loop {
            let length = chance.pick(&[1, 1, 2, 2, 3, 5, 9, 16]);
            let letters = b"ABCDEFGHIJKLMNOPQRSTUVWXYZabcdefghijklmnopqrstuvwxyz0123456789";
            let name: String = (0..length).map(|n| letters[chance.below(if n == 0 { 52 } else { 62 })] as char).collect();
            if !KEYWORDS.contains(&name.as_str()) && !self.names.contains(&name) && !self.traps.contains(&name) {
                return name;
            }
        }
    }

    fn say(&mut self, word: &str) {
        self.words.push(word.to_string());
    }

    /// A statement where 0: any may stand, 1: no parallel, 2: neither a parallel nor a sequence.
    fn spell(&mut self, level: usize, chance: &mut Chance) {
        let form = self.tokens[self.at].0;
        let needs = match form {
            Form::Parallel => level > 0,
            Form::Sequence => level > 1,
            _ => false,
        };
        let brackets = needs as usize + if chance.percent(8) { 1 + chance.below(3) } else { 0 };
        (0..brackets).for_each(|_| self.say("["));
        self.spell_bare(chance);
        (0..brackets).for_each(|_| self.say("]"));
    }

    fn spell_bare(&mut self, chance: &mut Chance) {
        let (form, operand) = self.tokens[self.at];
        self.at += 1;
        let signal = if form.names_signal() && form != Form::Local { self.names[operand as usize].clone() } else { String::new() };
        match form {
            Form::Nothing => self.say("nothing"),
            Form::Pause => self.say("pause"),
            Form::Emit => self.words.extend(["emit".to_string(), signal]),
            Form::Exit => {
                let to = self.traps[self.traps.len() - 1 - operand as usize].clone();
                self.words.extend(["exit".to_string(), to]);
            }
            Form::Present => {
                self.words.extend(["present".to_string(), signal, "then".to_string()]);
                self.spell(0, chance);
                self.say("else");
                self.spell(0, chance);
                self.say("end");
            }
            Form::Suspend => {
                self.say("suspend");
                self.spell(0, chance);
                self.words.extend(["when".to_string(), signal]);
            }
            Form::Loop => {
                self.say("loop");
                self.spell(0, chance);
                self.say("end");
            }
            Form::Sequence => {
                self.spell(2, chance);
                self.say(";");
                self.spell(1, chance);
            }
            Form::Parallel => {
                self.spell(1, chance);
                self.say("||");
                self.spell(0, chance);
            }
            Form::Trap | Form::Local => self.spell_scope(form, chance),
            Form::Halt | Form::Sustain | Form::Await | Form::Abort => unreachable!("a statement of edition 2"),
        }
    }

    fn spell_scope(&mut self, form: Form, chance: &mut Chance) {
        let name = self.new_name(chance);
        self.words.extend([if form == Form::Trap { "trap" } else { "signal" }.to_string(), name.clone(), "in".to_string()]);
        let own = self.names.len();
        if form == Form::Trap { self.traps.push(name) } else { self.names.push(name) }
        self.spell(0, chance);
        self.say("end");
        if form == Form::Trap {
            self.traps.pop();
        } else {
            self.names[own].clear();
        }
    }
}

/// A block to be said in a text.
fn some_said_block(chance: &mut Chance) -> (Vec<u8>, Block) {
    let (mut bytes, block) = match chance.weighed(&[70, 17, 3, 10]) {
        0 => some_mixed_block(chance, 1, 16),
        1 => {
            let wish = Wish::some(chance, 5, 40);
            some_block(chance, wish)
        }
        2 => {
            let wish = Wish { inputs: chance.below(20) as u16, outputs: 20, ..Wish::some(chance, 60, 480) };
            some_block(chance, wish)
        }
        _ => some_edge_block(chance),
    };
    let block = with_version(&mut bytes, block, chance);
    (bytes, block)
}

/// A random call that writes the text of a block.
pub fn some_written_case(chance: &mut Chance) -> Case {
    let (mut bytes, _) = some_said_block(chance);
    let size = decode(&bytes, Fault::None).map_or(40, |block| text_of(&block, Fault::None).len());
    if !bytes.is_empty() && chance.percent(10) {
        spoil(&mut bytes, chance);
    }
    let room = chance.pick(&[size + 40, size, size, size + 1, size - 1, 0]);
    Case { block: bytes, call: Call::WriteText { room } }
}

/// A random call that reads a text: a good one, a damaged one, or one of random tokens.
pub fn some_text_case(chance: &mut Chance) -> Case {
    let (bytes, block) = some_said_block(chance);
    let text = match chance.weighed(&[45, 45, 10]) {
        0 => some_text(&block, chance),
        1 => damaged(some_text(&block, chance), chance),
        _ => some_tokens(chance),
    };
    let size = bytes.len().min(4000);
    let room = chance.pick(&[3086, 3086, 3086, size, size + 1, size.saturating_sub(1), 0]);
    Case { block: text.into_bytes(), call: Call::ReadText { room } }
}

/// A text with one thing changed: a token left out, said twice, put in or exchanged, or a byte.
fn damaged(text: String, chance: &mut Chance) -> String {
    let places: Vec<(usize, usize)> = words(&text).into_iter().map(|(_, from, end)| (from, end)).collect();
    let all = tried();
    let (from, end) = chance.pick(&places);
    let other = chance.pick(&places);
    let token = all[chance.below(all.len())];
    let (before, own, behind) = (&text[..from], &text[from..end], &text[end..]);
    match chance.below(7) {
        0 => format!("{before} {behind}"),
        1 => format!("{before}{own} {own}{behind}"),
        2 => format!("{before}{token} {own}{behind}"),
        3 => format!("{before}{token}{behind}"),
        4 => format!("{before}{}{behind}", &text[other.0..other.1]),
        5 => text[..from].to_string(),
        _ => format!("{before}{}{own}{behind}", chance.pick(&['%', '_', '|', 'x', '9', '\u{b}', '-'])),
    }
}

fn some_tokens(chance: &mut Chance) -> String {
    let all = tried();
    let words: Vec<&str> = (0..chance.below(9)).map(|_| all[chance.below(all.len())]).collect();
    let begun = chance.pick(&["", "version 1;", "version 1; output A;", "version 65535; input B; output A;"]);
    format!("{begun} {}", words.join(" "))
}

/// Texts and the first words of the answer: number, place, size.
const WORKED: [(&str, &str); 46] = [
    ("version 7;nothing", "0 0 12 0e0001000100070000000000000004001000+bfc"),
    ("version 7;input A;output B;suspend pause;emit B when A", "0 0 22"),
    ("", "f 0 0"),
    ("  ", "f 2 0"),
    ("version", "f 7 0"),
    ("version ;", "f 8 0"),
    ("version 65535;nothing", "0 0"),
    ("version 65536;nothing", "f 8"),
    ("version 00001;nothing", "0 0"),
    ("version 000001;nothing", "f 8"),
    ("version 1 nothing", "f a"),
    ("version 1;", "f a"),
    ("version 1;input A;", "f 12"),
    ("version 1;input A,;nothing", "f 12"),
    ("version 1;input A,A;nothing", "f 12"),
    ("version 1;input A;output A;nothing", "f 19"),
    ("version 1;output A;input B;nothing", "f 13"),
    ("version 1;input;nothing", "f f"),
    ("version 1;input version;nothing", "f 10"),
    ("version 1;input a123456789012345;nothing", "0 0"),
    ("version 1;input a1234567890123456;nothing", "f 10"),
    ("version 1;input 1A;nothing", "f 10"),
    ("version 1;input A_B;nothing", "f 11"),
    ("version 1;emit A", "f f"),
    ("version 1;input A;emit A", "5 e"),
    ("version 1;output A;emit a", "f 18"),
    ("version 1;exit T", "f f"),
    ("version 1;trap T in exit T end", "0 0"),
    ("version 1;trap T in emit T end", "f 19"),
    ("version 1;signal S in exit S end", "f 1b"),
    ("version 1;trap T in trap T in nothing end end", "f 19"),
    ("version 1;signal S in trap S in nothing end end", "f 1b"),
    ("version 1;trap T in nothing end;trap T in nothing end", "0 0"),
    ("version 1;trap T in nothing end;exit T", "f 25"),
    ("version 1;nothing;", "f 12"),
    ("version 1;nothing|nothing", "f 11"),
    ("version 1;[nothing", "f 12"),
    ("version 1;nothing]", "f 11"),
    ("version 1;output A;present A then nothing end", "f 2a"),
    ("version 1;output A;present A else nothing end", "f 1d"),
    ("version 1;loop nothing end", "8 e"),
    ("version 1;loop pause end loop", "f 19"),
    ("version 1;output A;suspend pause when A end", "f 28"),
    ("version 1;%nothing", "f a"),
    ("version 1;Nothing", "f a"),
    ("version 1;output A,B,C;emit A;emit B||emit C;[emit A||emit B];nothing",
        "0 0 44 0e000100010001000000030000000400170004001500060012000000060012000100040015000600120002000400150004001700060012000000060012000100040010\
00+bca"),
];

/// The call that reads a text at its boundaries.
pub fn text_edges() -> Vec<EdgeCall> {
    let read = |text: &str, room: usize| Case { block: text.as_bytes().to_vec(), call: Call::ReadText { room } };
    let mut edges: Vec<EdgeCall> = WORKED.iter().map(|&(text, wanted)| (read(text, 3086), wanted)).collect();
    let small = large_texts().into_iter().filter(|(text, _)| text.len() < 12_000);
    let numbers = |(number, place): (u16, usize)| -> &'static str { Box::leak(format!("{number:x} {place:x}").into_boxed_str()) };
    edges.extend(small.map(|(text, wanted)| (read(&text, 3086), numbers(wanted))));
    for (room, wanted) in [(18, "0 0 12"), (19, "0 0 12"), (17, "c 0 0 -+11"), (0, "c 0 0 -+0")] {
        edges.push((read("version 1;nothing", room), wanted));
    }
    edges.push((read("version 1;output A;", 0), "f 13 0 -+0"));
    edges.push((read("version 1;loop nothing end", 0), "8 e 0 -+0"));
    edges
}

/// The call that writes a text at its boundaries.
pub fn written_edges() -> Vec<EdgeCall> {
    let write = |block: Vec<u8>, room: usize| Case { block, call: Call::WriteText { room } };
    let mut edges: Vec<EdgeCall> = Vec::new();
    // 76657273696f6e20313b0a6e6f7468696e670a: version 1; and nothing, a line each.
    let nothing = block_of(0, 0, "nothing");
    for (room, wanted) in [(19, "0 0 13 76657273696f6e20313b0a6e6f7468696e670a+0"), (20, "0 0 13"), (18, "c 0 0 -+12"), (0, "c 0 0 -+0")] {
        edges.push((write(nothing.clone(), room), wanted));
    }
    for (bad, wanted) in bad_blocks() {
        edges.push((write(bad.clone(), 400), wanted));
        edges.push((write(bad, 0), wanted));
    }
    let block = encode_tokens(Header { version: 7, inputs: 1, outputs: 1, locals: 0 }, &[
        (Form::Suspend, 0), (Form::Sequence, 0), (Form::Pause, 0), (Form::Emit, 1),
    ]);
    let lines = "version 7;\ninput I0;\noutput O1;\nsuspend\n  pause;\n  emit O1\nwhen I0\n";
    let hex: String = lines.bytes().map(|byte| format!("{byte:02x}")).collect();
    let wanted = format!("0 0 {:x} {hex}+0", lines.len());
    edges.push((write(block, lines.len()), Box::leak(wanted.into_boxed_str())));
    edges
}
