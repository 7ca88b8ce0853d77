//! Histories of calls on a shelf beside the model: all short ones on a small shelf, random ones on the true one. A third and a fourth
//! shelf take only one party's calls: what that party is told must be the same on both.

use crate::block::{encode_tokens, Form, Header, Token};
use crate::chance::Chance;
use crate::edges::block_of;
use crate::fault::{Fault, SHELVES};
use crate::shelf::{Shelf, Sizes, HEAD, TRUE};
use crate::shelf_model::{Model, Told, Use};

/// A party may hold a block of the one size and one of the other, to the last byte, and no more.
const SMALL: Sizes = Sizes { shelf: 120, party: 60 };

/// The call by the rules over bytes.
pub fn call(shelf: Shelf, bytes: &mut [u8], call: &Use) -> Told {
    match call {
        Use::Install { party, name, block } => {
            let answer = shelf.install(bytes, *party, *name, block);
            (answer.number, answer.place, Vec::new())
        }
        Use::Fetch { party, name } => {
            let (answer, part) = shelf.fetch(bytes, *party, *name);
            (answer.number, answer.place, part.to_vec())
        }
        Use::Withdraw { party, name } => {
            let answer = shelf.withdraw(bytes, *party, *name);
            (answer.number, answer.place, Vec::new())
        }
    }
}

/// A good block of just this many bytes, an even number from 18 to 3,086: a balanced tree whose first records have an operand.
pub fn sized_block(size: usize, version: u16) -> Vec<u8> {
    let body = size - 14;
    let six = (0..=512).find(|six| 6 * six <= body && (body - 6 * six) % 4 == 0 && (body - 6 * six) / 4 + six <= 512);
    let six = six.expect("an even size within the limits");
    let count = (body - 6 * six) / 4 + six;
    let mut tokens: Vec<Token> = Vec::new();
    if count % 2 == 0 {
        tokens.push((Form::Trap, 0));
    }
    balanced((count + 1) / 2, &mut tokens);
    for token in tokens.iter_mut().take(six) {
        token.0 = match token.0 {
            Form::Trap => Form::Suspend,
            Form::Sequence => Form::Present,
            _ => Form::Emit,
        };
    }
    encode_tokens(Header { version, inputs: 0, outputs: 1, locals: 0 }, &tokens)
}

fn balanced(leaves: usize, tokens: &mut Vec<Token>) {
    if leaves < 2 {
        return tokens.push((Form::Nothing, 0));
    }
    tokens.push((Form::Sequence, 0));
    balanced(leaves / 2, tokens);
    balanced(leaves - leaves / 2, tokens);
}

/// A shelf by the bytes and by the model, with what each party would have had alone, and the sum over the history.
#[derive(Clone)]
struct Beside {
    shelf: Vec<u8>,
    model: Model,
    alone: [Vec<u8>; 2],
    /// The sizes of the entries whose install was told 0 and that no withdrawal told 0 has taken off since.
    ledger: Vec<(u16, u16, usize)>,
}

/// Where the lengths from the front lead to: the bytes in use.
fn in_use(shelf: &[u8]) -> usize {
    let mut at = 0;
    while at + 2 <= shelf.len() && shelf[at..at + 2] != [0, 0] {
        at += u16::from_le_bytes([shelf[at], shelf[at + 1]]) as usize;
    }
    at
}

impl Beside {
    fn empty(sizes: Sizes) -> Beside {
        let zeros = vec![0; sizes.shelf];
        Beside { shelf: zeros.clone(), model: Model::default(), alone: [zeros.clone(), zeros], ledger: Vec::new() }
    }

    /// Writes into the ledger what a call was told.
    fn note(&mut self, used: &Use, told: &Told) {
        match used {
            Use::Install { party, name, block } if told.0 == 0 => self.ledger.push((*party, *name, HEAD + block.len())),
            Use::Withdraw { party, name } if told.0 == 0 => {
                self.ledger.retain(|entry| (entry.0, entry.1) != (*party, *name));
            }
            _ => {}
        }
    }

    /// Why a call is not told as it should be, or leaves another shelf.
    fn call(&mut self, rules: Shelf, used: &Use) -> (Told, Option<&'static str>) {
        let told = call(rules, &mut self.shelf, used);
        if told != self.model.call(used, rules.sizes) {
            return (told, Some("is told otherwise than by the model"));
        }
        if self.shelf != self.model.bytes(rules.sizes) {
            return (told, Some("leaves another shelf than the model"));
        }
        self.note(used, &told);
        if in_use(&self.shelf) != self.ledger.iter().map(|entry| entry.2).sum::<usize>() {
            return (told, Some("leaves other bytes in use than the sum over the history"));
        }
        let alone = self.alone.get_mut(used.party() as usize).map(|alone| call(rules, alone, used));
        let other = alone.map_or(false, |alone| alone != told);
        let wrong = if other { Some("is told otherwise than alone") } else { None };
        (told, wrong)
    }
}

struct Counts {
    fault: Fault,
    calls: usize,
    histories: usize,
    told: [usize; 23],
    damaged: usize,
    refused: usize,
    failures: Vec<String>,
}

impl Counts {
    fn new(fault: Fault) -> Counts {
        Counts { fault, calls: 0, histories: 0, told: [0; 23], damaged: 0, refused: 0, failures: Vec::new() }
    }

    fn one(&mut self, beside: &mut Beside, sizes: Sizes, used: &Use) {
        let (told, wrong) = beside.call(Shelf { sizes, fault: self.fault }, used);
        self.calls += 1;
        self.told[told.0 as usize] += 1;
        if let Some(why) = wrong {
            self.failures.push(format!("{used:?} {why}: {told:?} after {:?}", beside.model.entries));
        }
    }

    /// Every history of so many of these calls.
    fn every(&mut self, beside: &Beside, calls: &[Use], left: usize) {
        if left == 0 {
            self.histories += 1;
            return;
        }
        for used in calls {
            if self.told_once() {
                return;
            }
            let mut next = beside.clone();
            self.one(&mut next, SMALL, used);
            self.every(&next, calls, left - 1);
        }
    }

    /// A fault need not be told twice.
    fn told_once(&self) -> bool {
        self.fault != Fault::None && !self.failures.is_empty()
    }

    /// A random history on the true shelf; after each call now and then a damaged copy is tried.
    fn random(&mut self, calls: usize, chance: &mut Chance) {
        let mut beside = Beside::empty(TRUE);
        self.histories += 1;
        for _ in 0..calls {
            let used = some_use(&beside.model, chance);
            self.one(&mut beside, TRUE, &used);
            if chance.percent(30) {
                let next = some_use(&beside.model, chance);
                let bytes = damaged(&beside.model, chance);
                self.damage(bytes, &next);
            }
            if self.told_once() {
                return;
            }
        }
    }

    /// A call on any bytes, by the rules and by what the model makes of them.
    fn damage(&mut self, bytes: Vec<u8>, used: &Use) {
        let (wanted, after) = Model::call_on(&bytes, used, TRUE);
        let mut shelf = bytes;
        let told = call(Shelf { sizes: TRUE, fault: self.fault }, &mut shelf, used);
        self.damaged += 1;
        self.refused += (wanted.0 == 19) as usize;
        if told != wanted || shelf != after {
            self.failures.push(format!("{used:?} on a damaged shelf: {told:?}, not {wanted:?}"));
        }
    }
}

/// The calls of the small shelf: two names, two good blocks and a bad one, both parties, and a party that is none.
fn small_calls() -> Vec<Use> {
    let blocks = [sized_block(18, 1), sized_block(26, 2), block_of(0, 0, "(loop nothing)")];
    let mut calls = Vec::new();
    for party in 0..2 {
        for name in [0, 258] {
            calls.extend(blocks.iter().map(|block| Use::Install { party, name, block: block.clone() }));
            calls.push(Use::Fetch { party, name });
            calls.push(Use::Withdraw { party, name });
        }
    }
    calls.push(Use::Install { party: 2, name: 0, block: blocks[0].clone() });
    calls.push(Use::Fetch { party: 2, name: 0 });
    calls.push(Use::Withdraw { party: 2, name: 0 });
    calls
}

/// A random call, mostly an install that fits, some to the last byte and some by two bytes too large.
pub fn some_use(model: &Model, chance: &mut Chance) -> Use {
    let party = chance.pick(&[0, 0, 0, 0, 0, 0, 1, 1, 1, 1, 1, 1, 2, 65535]);
    let name = chance.pick(&[0, 1, 2, 3, 4, 5, 6, 7, 8, 9, 10, 11, 12, 13, 14, 15, 256, 511, 65535]);
    // Three times in five of an entry that is there.
    let there = if model.entries.is_empty() || chance.percent(40) { None } else { Some(chance.below(model.entries.len())) };
    let (of, called) = there.map_or((party, name), |at| (model.entries[at].0, model.entries[at].1));
    match chance.below(20) {
        0..=3 => return Use::Fetch { party: of, name: called },
        4..=6 => return Use::Withdraw { party: of, name: called },
        _ => {}
    }
    // Large blocks while there is much room, then such as fit to the last byte, or not by two.
    let exact = (TRUE.party - model.held(party.min(1))).saturating_sub(HEAD);
    let (small, any) = (18 + 2 * chance.below(40), 18 + 2 * chance.below(1535));
    let near = [exact, exact, exact + 2, exact.saturating_sub(2), small];
    let size = if exact > 3100 { chance.pick(&[18, small, any, 3086, 3086, 3086, 3086]) } else { chance.pick(&near) };
    let good = (18..=3086).contains(&size);
    let mut block = sized_block(if good { size } else { 18 }, chance.number() as u16);
    if chance.percent(6) {
        let at = chance.below(block.len());
        block[at] ^= 1 << chance.below(8);
    }
    if chance.percent(3) {
        block.truncate(chance.below(block.len()));
    }
    Use::Install { party, name, block }
}

/// The bytes of a shelf with one thing changed, in an entry's head, its block, the zeros, or the size; some are still a good shelf.
pub fn damaged(model: &Model, chance: &mut Chance) -> Vec<u8> {
    let mut model = model.clone();
    let some = if model.entries.is_empty() { 0 } else { chance.below(model.entries.len()) };
    match chance.below(12) {
        0 if !model.entries.is_empty() => model.entries[some].0 ^= 1 << chance.below(3),
        1 if !model.entries.is_empty() => {
            let again = model.entries[some].clone();
            model.entries.push(again);
        }
        2 if !model.entries.is_empty() => model.entries[some].2 = sized_block(3086, 1),
        3 => model.entries.push((chance.below(2) as u16, 77, sized_block(3086, 1))),
        4 => model.entries.push((0, 78, vec![0; 18])),
        5 if chance.percent(20) => {
            // Past a party's quota, with all else as it may be.
            let party = chance.below(2) as u16;
            while model.held(party) <= TRUE.party {
                model.entries.push((party, 1000 + model.entries.len() as u16, sized_block(3086, 1)));
            }
        }
        _ => {}
    }
    let mut bytes = model.bytes(TRUE);
    let used: usize = model.entries.iter().map(|entry| HEAD + entry.2.len()).sum();
    let start: usize = model.entries.iter().take(some).map(|entry| HEAD + entry.2.len()).sum();
    let last = bytes.len() - 1;
    match chance.below(10) {
        0 => bytes[last - chance.below(4)] ^= 1,
        1 => bytes[(used + chance.below(12)).min(last)] ^= 1 << chance.below(8),
        2 => bytes[(start + chance.below(HEAD)).min(last)] ^= 1 << chance.below(8),
        3 => bytes[chance.below(used.max(1))] ^= 1 << chance.below(8),
        4 => bytes.push(0),
        5 => bytes.truncate(last),
        6 => bytes.truncate(used),
        _ => {}
    }
    bytes
}

/// Every history of so many calls on the small shelf and so many random ones on the true one; false if a call is told or leaves
/// something otherwise, a shelf that is none is not refused, or a fault is missed.
pub fn print_shelf(most: usize, count: usize, seed: u64) -> bool {
    let mut counts = Counts::new(Fault::None);
    try_all(&mut counts, most, count, seed);
    counts.failures.iter().take(20).for_each(|failure| println!("failed shelf: {}", failure.chars().take(600).collect::<String>()));
    let missed = SHELVES.iter().filter(|&&fault| {
        let mut wrong = Counts::new(fault);
        try_all(&mut wrong, 3, count, seed);
        wrong.failures.is_empty()
    });
    let missed = missed.inspect(|fault| println!("{fault:?}: not told apart by histories ({})", fault.says())).count();
    let Counts { calls, histories, told, damaged, refused, failures, .. } = counts;
    println!("{histories} histories of {calls} calls on a shelf, {} of them told 0, {} TAKEN, {} QUOTA, {} ABSENT", told[0], told[20], told[21], told[22]);
    println!("{damaged} calls on damaged shelves, {refused} refused with 19; {} failed; {} faults told apart, {missed} not", failures.len(), SHELVES.len() - missed);
    failures.is_empty() && missed == 0 && told[19] == 0 && [0, 20, 21, 22].iter().all(|&n| told[n] > 0)
}

fn try_all(counts: &mut Counts, most: usize, count: usize, seed: u64) {
    counts.every(&Beside::empty(SMALL), &small_calls(), most);
    let mut chance = Chance::new(seed);
    for _ in 0..count {
        counts.random(100, &mut chance);
        if counts.told_once() {
            return;
        }
    }
}

#[test]
fn blocks_of_every_size() {
    for size in (18..=3086).step_by(2) {
        let block = sized_block(size, 3);
        assert!(block.len() == size && crate::block::decode(&block, Fault::None).is_ok(), "{size}");
    }
}
