//! How many cases there are of each sort, so that nobody has to believe that chance met them all.

use std::collections::HashMap;

use crate::block::{decode, decode_edition, Block, Form, Statement, Token};
use crate::calls::told;
use crate::cases::{Call, Case};
use crate::doubles::nested_loops;
use crate::family::{families, Family};
use crate::fault::Fault;
use crate::kernel::text_of;
use crate::met::{holds, taken, Met};
use crate::shelf::TRUE;
use crate::shelf_model::Model;
use crate::values::signal_bits;

/// A case with what it came to.
struct Seen<'a> {
    case: &'a Case,
    block: Option<Block>,
    /// The numbers of its line; those of lent bytes are left out.
    words: Vec<u64>,
    met: u32,
}

/// The place of the rounds in the line of an instant.
const ROUNDS: usize = 8;

type Sort = (&'static str, fn(&Seen) -> bool);

/// The sorts of the calls with two input sets, of instants that were evaluated.
const HEARD: [Sort; 7] = [
    ("every input heard", |seen| seen.unheard() == Some(0)),
    ("no input heard, of two or more", |seen| seen.unheard().map_or(false, |all| all > 1 && seen.heard() == 0)),
    ("some heard, some not", |seen| seen.unheard().map_or(false, |all| all > 0 && seen.heard() > 0)),
    ("answered with inputs not heard", |seen| seen.number() == 0 && seen.unheard() > Some(0)),
    ("13 with inputs not heard", |seen| seen.number() == 13 && seen.unheard() > Some(0)),
    ("running with inputs not heard", |seen| seen.phase() == Some(1) && seen.unheard() > Some(0)),
    ("logged with inputs not heard", |seen| seen.logged() && seen.number() == 0 && seen.unheard() > Some(0)),
];

/// The sorts of reasons.
const WHY: [Sort; 13] = [
    ("why refused, told", |seen| seen.told(0)),
    ("why refused, not so", |seen| seen.asked() == Some(0) && seen.number() == 16),
    ("why present, told", |seen| seen.told(1)),
    ("why present, not so", |seen| seen.asked() == Some(1) && seen.number() == 16),
    ("why not executed, told", |seen| seen.told(2)),
    ("why not executed, not so", |seen| seen.asked() == Some(2) && seen.number() == 16),
    ("a suspend named", |seen| seen.told(0) && seen.names(|p, _| p.form == Form::Suspend)),
    ("a test of an input not heard named", |seen| seen.told(0) && seen.names(|p, b| p.operand < b.header.inputs)),
    ("a test of a local named", |seen| {
        seen.told(0) && seen.names(|p, b| p.operand >= b.header.inputs + b.header.outputs)
    }),
    ("an emit that is not its signal's first named", |seen| seen.told(1) && seen.names(|p, b| !first_emit(p, b))),
    ("the emit itself named", |seen| seen.told(2) && seen.names(|p, _| p.form == Form::Emit)),
    ("a statement above the emit named", |seen| seen.told(2) && seen.names(|p, _| p.form != Form::Emit)),
    ("the root of a finished block named", |seen| {
        seen.told(2) && seen.lent().get(8) == Some(&2) && seen.names(|p, _| p.number == 0)
    }),
];

/// The sorts of calls on a shelf that are not refused with 19.
const SHELVES: [Sort; 10] = [
    ("an empty shelf", |seen| seen.shelved(|model, _| model.entries.is_empty())),
    ("entries of both parties", |seen| seen.shelved(|model, _| model.held(0) > 0 && model.held(1) > 0)),
    ("a name at both parties", |seen| {
        seen.shelved(|model, _| model.entries.iter().any(|one| model.entries.iter().any(|other| twins(one, other))))
    }),
    ("a block installed after others", |seen| seen.number() == 0 && seen.is("install") && seen.shelved(|m, _| m.entries.len() > 1)),
    ("a quota filled to the last byte", |seen| seen.shelved(|model, _| model.held(0) == TRUE.party)),
    ("a shelf filled to the last byte", |seen| seen.shelved(|model, _| model.held(0) + model.held(1) == TRUE.shelf)),
    ("the largest block installed", |seen| seen.number() == 0 && seen.is("install") && seen.case.block.len() == 3086),
    ("an entry withdrawn before others", |seen| {
        seen.number() == 0 && seen.is("withdraw") && seen.shelved(|model, case| model.entries.last().map_or(false, |last| !asks(case, last)))
    }),
    ("the last entry withdrawn", |seen| {
        seen.number() == 0 && seen.is("withdraw") && seen.shelved(|model, case| model.entries.last().map_or(false, |last| asks(case, last)))
    }),
    ("a block fetched that is not the first", |seen| {
        seen.number() == 0 && seen.is("fetch") && seen.shelved(|model, case| !asks(case, &model.entries[0]))
    }),
];

/// The sorts of mazes: number, place, and who wins, loses and draws.
const MAZES: [Sort; 5] = [
    ("an output wins", |seen| seen.ends(2)),
    ("an output loses", |seen| seen.ends(3)),
    ("an output draws", |seen| seen.ends(4)),
    ("outputs win, lose and draw", |seen| seen.ends(2) && seen.ends(3) && seen.ends(4)),
    ("inputs win and lose", |seen| seen.is("maze") && seen.number() == 0 && seen.inputs(2) && seen.inputs(3)),
];

/// The sorts of two blocks compared: number, place, whether the second, length.
const ALIKE: [Sort; 6] = [
    ("alike", |seen| seen.is("alike") && seen.number() == 0 && seen.words[3] == 0),
    ("told apart by one set", |seen| seen.is("alike") && seen.number() == 0 && seen.words[3] == 1),
    ("told apart by 3 sets or more", |seen| seen.is("alike") && seen.number() == 0 && seen.words[3] > 2),
    ("told apart by 1,024 sets", |seen| seen.is("alike") && seen.number() == 0 && seen.words[3] == 1024),
    ("a second block refused", |seen| seen.is("alike") && seen.number() > 0 && seen.words[2] == 1),
    ("6 inputs compared", |seen| seen.is("alike") && seen.number() == 0 && seen.block.as_ref().map_or(false, |block| block.header.inputs == 6)),
];

/// The sorts of doubled blocks: number, place, size.
const COPIES: [Sort; 4] = [
    ("a block without a loop doubled", |seen| seen.doubled(|block| nested_loops(block) == 0)),
    ("a local in a loop doubled", |seen| seen.doubled(|block| nested_loops(block) > 0 && nested(&block.root, Form::Local) > 0)),
    ("nested loops doubled", |seen| seen.doubled(|block| nested_loops(block) > 1)),
    ("3 nested loops doubled", |seen| seen.doubled(|block| nested_loops(block) > 2)),
];

/// The sorts of texts: number, place, size.
const TEXTS: [Sort; 4] = [
    ("a text of 200 bytes or more read", |seen| seen.is("readtext") && seen.number() == 0 && seen.case.block.len() >= 200),
    ("a text with brackets read", |seen| seen.is("readtext") && seen.number() == 0 && seen.case.block.contains(&b'[')),
    ("15 past the header", |seen| seen.number() == 15 && seen.words[1] > 30),
    ("15 at the end", |seen| seen.number() == 15 && seen.words[1] == seen.case.block.len() as u64),
];

/// The sorts of texts that are written.
const WRITTEN: [Sort; 3] = [
    ("a text of 1,000 bytes or more written", |seen| seen.written().len() >= 1000),
    ("a text with brackets written", |seen| seen.written().contains('[')),
    ("a text with an exit written", |seen| seen.written().contains("exit T")),
];

/// The sorts of conversions: number, place, size.
const CONVERTS: [Sort; 4] = [
    ("halt converted", |seen| seen.converted(Form::Halt)),
    ("sustain converted", |seen| seen.converted(Form::Sustain)),
    ("await converted", |seen| seen.converted(Form::Await)),
    ("abort converted", |seen| seen.converted(Form::Abort)),
];

/// Whether a fetch or a withdrawal is of this entry.
fn asks(case: &Case, entry: &(u16, u16, Vec<u8>)) -> bool {
    match case.call {
        Call::Fetch { party, name, .. } | Call::Withdraw { party, name, .. } => (party, name) == (entry.0, entry.1),
        _ => false,
    }
}

/// Whether two entries have one name at two parties.
fn twins(one: &(u16, u16, Vec<u8>), other: &(u16, u16, Vec<u8>)) -> bool {
    one.0 != other.0 && one.1 == other.1
}

const SORTS: [Sort; 24] = [
    ("fresh states", |seen| seen.phase() == Some(0)),
    ("running states", |seen| seen.phase() == Some(1)),
    ("finished states", |seen| seen.phase() == Some(2)),
    ("two or more active pauses", |seen| seen.active().count_ones() > 1),
    ("active pauses from 64 on", |seen| seen.active() >> 64 != 0),
    ("inputs or outputs from 32 on", |seen| seen.has(|block| block.header.inputs + block.header.outputs > 32)),
    ("100 statements or more", |seen| seen.has(|block| block.statements >= 100)),
    ("6 nested locals", |seen| seen.has(|block| nested(&block.root, Form::Local) == 6)),
    ("4 nested traps or more", |seen| seen.has(|block| nested(&block.root, Form::Trap) >= 4)),
    ("exits over 2 traps or more", |seen| seen.has(|block| exits_far(&block.root))),
    ("3 rounds or more", |seen| seen.ran() && seen.words[ROUNDS] >= 3),
    ("can under plus", |seen| seen.met(Met::Plus)),
    ("can under open", |seen| seen.met(Met::Open)),
    ("a local's can under plus", |seen| seen.met(Met::LocalUnderPlus)),
    ("a local's can under open", |seen| seen.met(Met::LocalUnderOpen)),
    ("locals found present", |seen| seen.met(Met::LocalPresent)),
    ("locals found absent", |seen| seen.met(Met::LocalAbsent)),
    ("locals left unknown", |seen| seen.met(Met::LocalUnknown)),
    ("present of an unknown signal", |seen| seen.met(Met::UnknownPresent)),
    ("suspend of an unknown signal", |seen| seen.met(Met::UnknownSuspend)),
    ("bodies held by suspend", |seen| seen.met(Met::Held)),
    ("loops restarted", |seen| seen.met(Met::Restart)),
    ("loops restarted around a local", |seen| seen.met(Met::ScopeRestart)),
    ("logs not at their front", |seen| seen.ran() && matches!(seen.case.call, Call::Logged { end, .. } if end > 0)),
];

impl<'a> Seen<'a> {
    fn new(case: &'a Case) -> Seen<'a> {
        taken();
        let line = told(case, Fault::None);
        let met = taken();
        let words = line.split(' ').skip(1).filter_map(|word| u64::from_str_radix(word, 16).ok()).collect();
        Seen { case, block: decode(&case.block, Fault::None).ok(), words, met }
    }

    fn number(&self) -> usize {
        self.words[0] as usize
    }

    /// Whether an instant was evaluated: answered, or 13.
    fn ran(&self) -> bool {
        matches!(self.case.call, Call::Instant { .. } | Call::Logged { .. }) && matches!(self.number(), 0 | 13)
    }

    /// How many declared inputs are in neither set, of a call with two sets that was evaluated.
    fn unheard(&self) -> Option<u32> {
        let inputs = self.block.as_ref()?.header.inputs;
        match &self.case.call {
            Call::Heard { heard, .. } | Call::HeardLogged { heard, .. } if matches!(self.number(), 0 | 13) => {
                Some(inputs as u32 - (heard.present | heard.absent).count_ones())
            }
            _ => None,
        }
    }

    fn heard(&self) -> u32 {
        match &self.case.call {
            Call::Heard { heard, .. } | Call::HeardLogged { heard, .. } => (heard.present | heard.absent).count_ones(),
            _ => 0,
        }
    }

    /// Which question was asked.
    fn asked(&self) -> Option<u64> {
        match &self.case.call {
            Call::Reason { asked, .. } => Some(asked.numbers().0),
            _ => None,
        }
    }

    /// Whether this question was asked and a statement named.
    fn told(&self, question: u64) -> bool {
        self.asked() == Some(question) && self.number() == 0
    }

    /// Whether the statement named is such.
    fn names(&self, such: fn(&Statement, &Block) -> bool) -> bool {
        let block = self.block.as_ref();
        block.map_or(false, |block| block.root.find(self.words[4] as usize).map_or(false, |p| such(p, block)))
    }

    /// The state lent to a question.
    fn lent(&self) -> &[u8] {
        match &self.case.call {
            Call::Reason { state, .. } => state,
            _ => &[],
        }
    }

    /// The text that was written for a block.
    fn written(&self) -> String {
        let block = self.block.as_ref().filter(|_| self.is("writetext") && self.number() == 0);
        block.map_or(String::new(), |block| text_of(block, Fault::None))
    }

    /// Whether the word at this place has an output in a maze that was given.
    fn ends(&self, at: usize) -> bool {
        let outputs = |block: &Block| signal_bits(block.header.inputs, block.header.outputs);
        self.is("maze") && self.number() == 0 && self.block.as_ref().map_or(0, outputs) & self.words[at] != 0
    }

    fn inputs(&self, at: usize) -> bool {
        self.block.as_ref().map_or(0, |block| signal_bits(0, block.header.inputs)) & self.words[at] != 0
    }

    fn is(&self, call: &str) -> bool {
        self.case.name() == call
    }

    /// Whether the lent shelf is a good one, and such.
    fn shelved(&self, such: fn(&Model, &Case) -> bool) -> bool {
        let shelf = match &self.case.call {
            Call::Install { shelf, .. } | Call::Fetch { shelf, .. } | Call::Withdraw { shelf, .. } => shelf,
            _ => return false,
        };
        Model::of_bytes(shelf, TRUE).map_or(false, |model| such(&model, self.case))
    }

    fn logged(&self) -> bool {
        matches!(self.case.call, Call::Logged { .. } | Call::HeardLogged { .. })
    }

    fn has(&self, what: fn(&Block) -> bool) -> bool {
        self.ran() && self.block.as_ref().map_or(false, what)
    }

    /// Whether a block with such a statement was converted.
    fn converted(&self, form: Form) -> bool {
        let block = decode_edition(&self.case.block, 2, Fault::None).ok();
        let has = |block: Block| block.root.tokens().iter().any(|token| token.0 == form);
        self.is("convert") && self.number() == 0 && block.map_or(false, has)
    }

    /// Whether such a block was doubled.
    fn doubled(&self, such: fn(&Block) -> bool) -> bool {
        self.is("copies") && self.number() == 0 && self.block.as_ref().map_or(false, such)
    }

    fn met(&self, met: Met) -> bool {
        self.ran() && holds(self.met, met)
    }

    fn state(&self) -> &[u8] {
        match &self.case.call {
            Call::Instant { state, .. } | Call::Logged { state, .. } if self.ran() => state,
            Call::Heard { state, .. } | Call::HeardLogged { state, .. } if self.unheard().is_some() => state,
            _ => &[],
        }
    }

    fn phase(&self) -> Option<u8> {
        self.state().get(8).copied()
    }

    fn active(&self) -> u128 {
        self.state().iter().skip(10).rev().fold(0, |all, &byte| all << 8 | byte as u128)
    }
}

/// How many of a form stand inside each other at most.
fn nested(p: &Statement, form: Form) -> usize {
    let below = p.parts.iter().map(|part| nested(part, form)).max().unwrap_or(0);
    below + (p.form == form) as usize
}

fn exits_far(p: &Statement) -> bool {
    p.form == Form::Exit && p.operand >= 2 || p.parts.iter().any(exits_far)
}

/// Whether an emit is the first of its signal in the block.
fn first_emit(p: &Statement, block: &Block) -> bool {
    let same = |token: &Token| *token == (p.form, p.operand);
    block.root.tokens().iter().position(same) == Some(p.number)
}

/// Whether a call can give this number at all.
fn possible(call: &str, number: usize) -> bool {
    match call {
        "check" => number <= 8,
        "fresh" => number <= 9,
        "instant" | "heard" => number <= 13 && number != 12 || number == 17,
        "reason" => number <= 11 || number == 16 || number == 17,
        "maze" => number <= 8 || number == 11 || number == 26,
        "readtext" => [0, 4, 5, 8, 12, 15].contains(&number),
        "writetext" | "copies" | "convert" => number <= 8 || number == 12,
        "alike" => number <= 8 || number == 12 || (23..=25).contains(&number),
        "install" => number <= 8 || (18..=21).contains(&number),
        "fetch" | "withdraw" => [0, 18, 19, 22].contains(&number),
        "logged" | "heardlogged" => number <= 13 || number == 17,
        _ => number <= 8 || number == 14,
    }
}

/// The greatest number that a call gives.
const LAST: usize = 26;

fn numbered(call: &str, number: usize) -> String {
    format!("{call} {number}")
}

/// The sorts that a case is of: its call with the number given, and all else that it met.
pub fn sorts(case: &Case) -> Vec<String> {
    let seen = Seen::new(case);
    let mut sorts = vec![numbered(case.name(), seen.number())];
    let named = SORTS.iter().chain(&HEARD).chain(&WHY).chain(&SHELVES).chain(&MAZES).chain(&ALIKE).chain(&COPIES).chain(&WRITTEN).chain(&TEXTS).chain(&CONVERTS);
    sorts.extend(named.filter(|sort| (sort.1)(&seen)).map(|sort| sort.0.to_string()));
    sorts
}

/// The named sorts of some families.
fn named_sorts(families: &[Family]) -> Vec<&'static str> {
    let of = |family: &Family| match family {
        Family::Base => &SORTS[..],
        Family::Heard => &HEARD[..],
        Family::Why => &WHY[..],
        Family::Shelf => &SHELVES[..],
        Family::Maze => &MAZES[..],
        Family::Alike => &ALIKE[..],
        Family::Copies => &COPIES[..],
        Family::Written => &WRITTEN[..],
        Family::Text => &TEXTS[..],
        Family::Convert => &CONVERTS[..],
    };
    families.iter().flat_map(of).map(|sort| sort.0).collect()
}

/// Every sort there is of some families.
pub fn all_sorts(families: &[Family]) -> Vec<String> {
    let mut all: Vec<String> = named_sorts(families).iter().map(|sort| sort.to_string()).collect();
    for call in families.iter().flat_map(|family| family.calls()) {
        all.extend((0..=LAST).filter(|&number| possible(call, number)).map(|number| numbered(call, number)));
    }
    all
}

/// Prints how many cases there are of each sort; false if one has none.
pub fn print_counts(cases: &[Case]) -> bool {
    let mut counts: HashMap<String, usize> = HashMap::new();
    cases.iter().flat_map(sorts).for_each(|sort| *counts.entry(sort).or_insert(0) += 1);
    let count = |sort: &str| counts.get(sort).copied().unwrap_or(0);
    let families = families(cases);
    let calls: Vec<&str> = families.iter().flat_map(|family| family.calls()).copied().collect();
    println!("{:>8}{}", "number", calls.iter().map(|call| format!("{call:>12}")).collect::<String>());
    for number in (0..=LAST).filter(|&number| calls.iter().any(|call| possible(call, number))) {
        let cell = |call: &&str| match possible(call, number) {
            true => format!("{:12}", count(&numbered(call, number))),
            false => format!("{:>12}", "."),
        };
        println!("{number:8}{}", calls.iter().map(cell).collect::<String>());
    }
    named_sorts(&families).iter().for_each(|sort| println!("{:8}  {sort}", count(sort)));
    let missing = all_sorts(&families).iter().filter(|sort| count(sort) == 0).count();
    println!("{} cases, {missing} sorts without a case", cases.len());
    missing == 0
}
