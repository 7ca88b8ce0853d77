//! What a refused instant waits for, as a program tells it, judged: that every arrow is true. `doubts` makes refused instants; a program follows
//! what their named tests wait for, and `arrows` reads what it says.

use std::io::{self, BufRead};

use crate::block::{encode, Block, Form, Statement};
use crate::chance::Chance;
use crate::fault::Fault;
use crate::generate::{some_block, some_phase, Wish};
use crate::heard_cases::some_heard;
use crate::mesh::Mesh;
use crate::mutate::some_mixed_block;
use crate::reaction::{begin_heard, Phase};
use crate::reason::Reached;
use crate::rules::Rules;
use crate::state::{prepare, state_record, Told};
use crate::values::{signal_bit, Event, Heard, Mark, Run};
use crate::why::reached_by_circuit;

const RULES: Rules = Rules { fault: Fault::None };

/// Prints refused instants of random blocks, in hex: block, state, inputs present, inputs absent.
pub fn print_doubts(count: usize, seed: u64) -> bool {
    let mut chance = Chance::new(seed);
    let mut made = 0;
    while made < count {
        let block = match chance.below(3) {
            0 => Mesh::some(&mut chance, 4).block(&mut chance),
            1 => {
                let wish = Wish { inputs: chance.pick(&[0, 1, 2, 3]), ..Wish::some(&mut chance, 4, 40) };
                some_block(&mut chance, wish).1
            }
            _ => some_mixed_block(&mut chance, 4, 20).1,
        };
        let (phase, heard) = (some_phase(&block, &mut chance), some_heard(block.header.inputs, &mut chance));
        if RULES.react_heard(&block, phase, heard).code.is_none() {
            made += 1;
            let (bytes, state) = (encode(block.header, &block.root), state_record(&block, phase));
            println!("{} {} {:x} {:x}", hex(&bytes), hex(&state), heard.present, heard.absent);
        }
    }
    true
}

fn hex(bytes: &[u8]) -> String {
    bytes.iter().map(|byte| format!("{byte:02x}")).collect()
}

fn bytes_of(digits: &str) -> Vec<u8> {
    (0..digits.len() / 2).filter_map(|n| u8::from_str_radix(&digits[2 * n..2 * n + 2], 16).ok()).collect()
}

/// What a program followed from a named test: the tests, the emits with how each stands to which tests, and the ways.
struct Followed {
    named: usize,
    tests: Vec<usize>,
    /// Those of the tests that are said not to be reached yet.
    unreached: Vec<usize>,
    emits: Vec<(usize, String, Vec<usize>)>,
    cycle: Vec<usize>,
    chain: Vec<usize>,
}

impl Followed {
    /// What the program's object says.
    fn of(text: &str) -> Option<Followed> {
        let between = |from: &str, to: &str| text.split_once(from).and_then(|(_, rest)| rest.split_once(to)).map(|(part, _)| part);
        let (tests, emits) = (between("\"tests\":[", "],\"emits\"")?, between("\"emits\":[", "],\"cycle\"")?);
        let emit = |part: &str| {
            let stands = part.split_once("\"stands\":\"")?.1.split_once('"')?.0.to_string();
            Some((number(part, "statement")?, stands, numbers(part, "waits")?))
        };
        let head = text.split("\"tests\"").next()?;
        Some(Followed {
            named: number(head, "statement")?,
            tests: tests.split('{').skip(1).filter_map(|part| number(part, "statement")).collect(),
            unreached: tests.split('{').filter(|part| part.contains("\"reached\":false")).filter_map(|part| number(part, "statement")).collect(),
            emits: emits.split('{').skip(1).map(emit).collect::<Option<_>>()?,
            cycle: numbers(text, "cycle")?,
            chain: numbers(text, "chain")?,
        })
    }
}

fn number(text: &str, key: &str) -> Option<usize> {
    let rest = text.split_once(&format!("\"{key}\":"))?.1;
    rest.split(|c: char| !c.is_ascii_digit()).next()?.parse().ok()
}

fn numbers(text: &str, key: &str) -> Option<Vec<usize>> {
    let list = text.split_once(&format!("\"{key}\":["))?.1.split_once(']')?.0;
    list.split(',').filter(|word| !word.is_empty()).map(|word| word.parse().ok()).collect()
}

/// Reads lines of a refused instant and what a program says of it; answers whether all of it is true.
pub fn print_arrows() -> bool {
    let (mut instants, mut arrows, mut cycles, mut chains, mut wrong) = (0, 0, 0, 0, 0);
    for line in io::stdin().lock().lines().map_while(Result::ok) {
        instants += 1;
        match judged(&line) {
            Ok(told) => {
                arrows += told.emits.iter().map(|emit| emit.2.len()).sum::<usize>();
                cycles += !told.cycle.is_empty() as usize;
                chains += !told.chain.is_empty() as usize;
            }
            Err(why) => {
                wrong += 1;
                println!("{why}: {line}");
            }
        }
    }
    println!("{arrows} arrows in {instants} refused instants, {cycles} with a cycle, {chains} with an input not heard, {wrong} told wrongly");
    wrong == 0 && instants > 0
}

fn judged(line: &str) -> Result<Followed, String> {
    let words: Vec<&str> = line.splitn(5, ' ').collect();
    let set = |n: usize| words.get(n).and_then(|word| u64::from_str_radix(word, 16).ok()).ok_or("no set");
    let heard = Heard { present: set(2)?, absent: set(3)? };
    let prepared = prepare(&bytes_of(words[0]), &bytes_of(words[1]), Told::Two(heard), None, Fault::None);
    let (block, phase, heard) = prepared.map_err(|answer| format!("refused with {}", answer.number))?;
    let told = words.get(4).and_then(|text| Followed::of(text)).ok_or("nothing is told")?;
    let reached = reached_by_circuit(&block, phase, heard);
    Judge { block: &block, phase, heard, reached: &reached }.all(&told)?;
    Ok(told)
}

struct Judge<'a> {
    block: &'a Block,
    phase: Phase,
    heard: Heard,
    reached: &'a Reached,
}

impl<'a> Judge<'a> {
    fn all(&self, told: &Followed) -> Result<(), String> {
        let lowest = self.reached.undecided.iter().next().copied();
        if lowest != Some(told.named) || !told.tests.contains(&told.named) {
            return Err(format!("named is {}, the lowest is {lowest:?}", told.named));
        }
        if let Some(test) = told.tests.iter().find(|test| !self.reached.undecided.contains(test) && self.may_wait(**test) == Some(false)) {
            return Err(format!("{test} is no undecided test that is reached or may be"));
        }
        if let Some(test) = told.tests.iter().find(|test| !told.unreached.contains(test) && !self.reached.undecided.contains(test)) {
            return Err(format!("{test} is not reached for sure"));
        }
        for (emit, stands, waits) in &told.emits {
            self.emit(told, *emit, stands, waits)?;
            self.no_test_missing(told, *emit)?;
        }
        self.none_missing(told)?;
        self.ways(told)
    }

    fn signal(&self, n: usize) -> Option<u16> {
        self.block.root.find(n).map(|statement| statement.operand)
    }

    /// One emit: of a signal that a test waits for, it may still be executed and is not for sure, and it stands so to its tests.
    fn emit(&self, told: &Followed, emit: usize, stands: &str, waits: &[usize]) -> Result<(), String> {
        let is_emit = self.block.root.find(emit).map_or(false, |p| p.form == Form::Emit);
        if !is_emit || !told.tests.iter().any(|test| self.signal(*test) == self.signal(emit)) {
            return Err(format!("{emit} is no emit of a signal that is tested"));
        }
        if self.may_come(emit) == Some(false) {
            return Err(format!("{emit} cannot be executed any more, or is for sure"));
        }
        match waits.iter().find(|test| !told.tests.contains(test) || !self.stands(emit, stands, **test)) {
            Some(test) => Err(format!("{emit} does not stand {stands} {test}")),
            None if waits.is_empty() => Err(format!("{emit} waits for nothing")),
            None => Ok(()),
        }
    }

    /// Whether an emit stands to a test as is said, by the tree alone.
    fn stands(&self, emit: usize, stands: &str, test: usize) -> bool {
        let below = |p: &Statement, n: usize| p.find(n).is_some();
        let mut meets = Vec::new();
        common(&self.block.root, emit, test, &mut meets);
        match (stands, meets.last()) {
            ("under", Some(p)) => p.number == test && emit != test,
            ("after", Some(p)) => p.form == Form::Sequence && below(&p.parts[0], test) && below(&p.parts[1], emit),
            ("again", _) => meets.iter().any(|p| p.form == Form::Loop && self.is_resumed(p)),
            _ => false,
        }
    }

    fn is_resumed(&self, p: &Statement) -> bool {
        matches!(self.phase, Phase::Running(active) if p.holds(active))
    }

    /// The statuses with which the rounds end.
    fn event(&self) -> Event {
        let (begin, reaction) = (begin_heard(self.heard), RULES.react_heard(self.block, self.phase, self.heard));
        Event { present: begin.present | reaction.present, absent: begin.absent | reaction.absent }
    }

    /// Whether an emit can be executed and is not for sure: a signal that nothing else has is emitted with it. None where all 64 are taken.
    fn may_come(&self, emit: usize) -> Option<bool> {
        let mut root = self.block.root.clone();
        beside(&mut root, emit, 63);
        let run = self.run()?;
        let e = self.event();
        self.is_free(1).then(|| RULES.can((&root, run), Mark::Plus, e).has(63) && RULES.must((&root, run), e).signals & signal_bit(63) == 0)
    }

    fn run(&self) -> Option<Run> {
        match self.phase {
            Phase::Fresh => Some(Run::Started),
            Phase::Running(active) => Some(Run::Resumed(active)),
            Phase::Finished => None,
        }
    }

    /// Whether so many signals, from 63 down, are not the block's.
    fn is_free(&self, count: u16) -> bool {
        let header = self.block.header;
        header.inputs + header.outputs + header.locals <= 64 - count
    }

    /// Whether both branches of a test can be begun: each gets an emit of a signal of its own before it. None of a suspend, and where all 64 are taken.
    fn may_wait(&self, test: usize) -> Option<bool> {
        let is_present = self.block.root.find(test)?.form == Form::Present;
        let mut root = self.block.root.clone();
        before_branches(&mut root, test, [63, 62]);
        let can = RULES.can((&root, self.run()?), Mark::Plus, self.event());
        (is_present && self.is_free(2)).then(|| can.has(63) && can.has(62))
    }

    /// Every undecided test above an emit that is told is told with it. In a loop that is resumed the two may belong to two runs of its body.
    fn no_test_missing(&self, told: &Followed, emit: usize) -> Result<(), String> {
        let mut above = Vec::new();
        common(&self.block.root, emit, emit, &mut above);
        let once = above.iter().take_while(|p| !(p.form == Form::Loop && self.is_resumed(p)));
        let is_told = |test: usize| told.emits.iter().any(|(n, stands, waits)| *n == emit && stands == "under" && waits.contains(&test));
        let missing = once.filter(|p| p.form == Form::Present && self.may_wait(p.number) == Some(true)).find(|p| !is_told(p.number));
        missing.map_or(Ok(()), |p| Err(format!("{emit} stands under {} too", p.number)))
    }

    /// Every emit of a tested output that may still come is told.
    fn none_missing(&self, told: &Followed) -> Result<(), String> {
        let outputs = self.block.header.inputs..self.block.header.inputs + self.block.header.outputs;
        let tokens = self.block.root.tokens();
        let tested = |s: u16| outputs.contains(&s) && told.tests.iter().any(|test| self.signal(*test) == Some(s));
        let emits = (0..tokens.len()).filter(|n| tokens[*n].0 == Form::Emit && tested(tokens[*n].1));
        let missing = |n: &usize| self.may_come(*n) == Some(true) && !told.emits.iter().any(|emit| emit.0 == *n);
        emits.filter(missing).map(|n| Err(format!("emit {n} is not told"))).next().unwrap_or(Ok(()))
    }

    /// The ways go from the named test by arrows that are told; one comes back to a test, the other to an input that is not heard.
    fn ways(&self, told: &Followed) -> Result<(), String> {
        let leads = |a: usize, b: usize| told.emits.iter().any(|emit| self.signal(emit.0) == self.signal(a) && emit.2.contains(&b));
        for way in [&told.cycle, &told.chain] {
            let follows = way.first().map_or(true, |first| *first == told.named) && way.windows(2).all(|pair| leads(pair[0], pair[1]));
            if !follows {
                return Err(format!("{way:?} is no way"));
            }
        }
        let is_input = |n: &usize| self.signal(*n).map_or(false, |s| s < self.block.header.inputs);
        let comes_back = told.cycle.split_last().map_or(true, |(last, before)| before.contains(last));
        match (told.cycle.is_empty() && told.chain.is_empty(), comes_back, told.chain.last().map_or(true, is_input)) {
            (false, true, true) => Ok(()),
            _ => Err("no cycle and no input that is not heard".to_string()),
        }
    }
}

/// The statements above, or at, both of two, the root's first.
fn common<'a>(p: &'a Statement, a: usize, b: usize, meets: &mut Vec<&'a Statement>) {
    if p.find(a).is_some() && p.find(b).is_some() {
        meets.push(p);
        p.parts.iter().for_each(|part| common(part, a, b, meets));
    }
}

/// Puts an emit of another signal behind an emit.
fn beside(p: &mut Statement, emit: usize, signal: u16) {
    if p.number == emit && p.form == Form::Emit {
        let (first, second) = (p.clone(), Statement { operand: signal, ..p.clone() });
        p.form = Form::Sequence;
        p.parts = vec![Statement { number: usize::MAX, ..first }, Statement { number: usize::MAX, ..second }];
        return;
    }
    p.parts.iter_mut().for_each(|part| beside(part, emit, signal));
}

/// Puts an emit of a signal of its own before each branch of a test.
fn before_branches(p: &mut Statement, test: usize, signals: [u16; 2]) {
    if p.number == test && p.form == Form::Present {
        for (part, signal) in p.parts.iter_mut().zip(signals) {
            let emit = Statement { number: usize::MAX, form: Form::Emit, operand: signal, parts: Vec::new(), pauses: 0, ..part.clone() };
            *part = Statement { number: usize::MAX, form: Form::Sequence, operand: 0, parts: vec![emit, part.clone()], ..part.clone() };
        }
        return;
    }
    p.parts.iter_mut().for_each(|part| before_branches(part, test, signals));
}
