//! Any order of settling: one justified output at a time ends as the rounds do.
//! Every order is tried where there are few outputs, for an order is a path through the events it comes to.

use std::collections::HashMap;

use crate::all::{All, Alphabet};
use crate::block::{decode, encode_tokens, Block, Form, Statement, Token, FORMS};
use crate::chance::Chance;
use crate::fault::{Fault, ORDERS};
use crate::generate::{phases, some_block, some_inputs, some_phase, Wish};
use crate::mutate::some_mixed_block;
use crate::reaction::{begin_of, Phase, Reaction};
use crate::row::{header_of, Row};
use crate::rules::Rules;
use crate::values::{signal_bit, signal_bits, Event, Mark, Part};

/// With more outputs than these, orders are drawn instead of all being tried.
const FEW: u16 = 8;
/// So many are drawn for an instant.
const DRAWN: usize = 3;

/// One instant whose outputs are settled one at a time.
struct Settling<'a> {
    root: Part<'a>,
    outputs: u64,
    begin: Event,
    fault: Fault,
    /// What the rounds come to.
    wanted: Reaction,
}

impl<'a> Settling<'a> {
    /// What one step can come to: an undecided output is present if in must, absent if not in can under plus.
    fn steps(&self, e: Event) -> Vec<Event> {
        let rules = Rules { fault: Fault::None };
        let asked = if self.fault == Fault::SettledByBeginning { self.begin } else { e };
        let mark = if self.fault == Fault::SettledUnderOpen { Mark::Open } else { Mark::Plus };
        let must = rules.must(self.root, asked).signals;
        let can = match self.fault {
            Fault::SettledUnasked => must,
            Fault::SettledNeverAbsent => u64::MAX,
            _ => rules.can(self.root, mark, asked).signals,
        };
        let undecided = self.outputs & !e.present & !e.absent;
        let justified = undecided & (must | !can);
        if self.fault == Fault::SettledTogether && justified != 0 {
            return vec![Event { present: e.present | justified & must, absent: e.absent | justified & !must }];
        }
        let settled = |s: u16| if must & signal_bit(s) != 0 { e.with_present(s) } else { e.with_absent(s) };
        (0..64).filter(|&s| justified & signal_bit(s) != 0).map(settled).collect()
    }

    /// Whether an order that ends here after so many steps ends with the statuses and the code of the rounds.
    fn ends_well(&self, e: Event, steps: u32) -> bool {
        let decided = self.outputs & (e.present | e.absent);
        let code = Rules { fault: Fault::None }.must(self.root, e).code;
        e.present & self.outputs == self.wanted.present
            && e.absent & self.outputs == self.wanted.absent
            && code == self.wanted.code
            && steps == decided.count_ones()
    }

    /// How many orders go on from here; the ones that end badly are counted apart.
    fn every(&self, e: Event, steps: u32, seen: &mut HashMap<(u64, u64, u32), Tried>) -> Tried {
        let key = (e.present, e.absent, steps);
        if let Some(&tried) = seen.get(&key) {
            return tried;
        }
        let next = self.steps(e);
        let mut tried = if next.is_empty() { self.ended(e, steps) } else { Tried::default() };
        next.iter().for_each(|&later| tried.add(self.every(later, steps + 1, seen)));
        seen.insert(key, tried);
        tried
    }

    /// One order, each step drawn among those there are.
    fn drawn(&self, chance: &mut Chance) -> Tried {
        let (mut e, mut steps) = (self.begin, 0);
        loop {
            let next = self.steps(e);
            if next.is_empty() {
                return self.ended(e, steps);
            }
            e = chance.pick(&next);
            steps += 1;
        }
    }

    fn ended(&self, e: Event, steps: u32) -> Tried {
        Tried { orders: 1, bad: !self.ends_well(e, steps) as u64, longest: steps }
    }
}

/// Orders that were tried, those among them that end otherwise than the rounds, and the steps of the longest.
#[derive(Clone, Copy, Default)]
struct Tried {
    orders: u64,
    bad: u64,
    longest: u32,
}

impl Tried {
    fn add(&mut self, other: Tried) {
        self.orders += other.orders;
        self.bad += other.bad;
        self.longest = self.longest.max(other.longest);
    }
}

/// All that was tried, true settling or with a fault.
struct Orders {
    fault: Fault,
    instants: usize,
    tried: Tried,
    failures: Vec<String>,
}

impl Orders {
    fn new(fault: Fault) -> Orders {
        Orders { fault, instants: 0, tried: Tried::default(), failures: Vec::new() }
    }

    /// Every order of an instant with few outputs, some of one with many.
    fn instant(&mut self, block: &Block, phase: Phase, given: u64, chance: &mut Chance) {
        let rules = Rules { fault: Fault::None };
        let nothing = Statement::lone_nothing();
        let (inputs, outputs) = (block.header.inputs, block.header.outputs);
        let settling = Settling {
            root: rules.root_of(block, phase, &nothing),
            outputs: signal_bits(inputs, outputs),
            begin: begin_of(block, given),
            fault: self.fault,
            wanted: rules.react(block, phase, given),
        };
        let mut tried = Tried::default();
        if outputs <= FEW {
            tried = settling.every(settling.begin, 0, &mut HashMap::new());
        } else {
            (0..DRAWN).for_each(|_| tried.add(settling.drawn(chance)));
        }
        self.instants += 1;
        self.tried.add(tried);
        if tried.bad != 0 {
            let row = Row { inputs, outputs, tokens: block.root.tokens(), phase, given };
            self.failures.push(row.text());
        }
    }

    /// All blocks up to this many statements with one input, two outputs and one local, in every state.
    fn small(&mut self, most: usize, chance: &mut Chance) {
        let mut all = All::new(Alphabet { forms: &FORMS, inputs: 1, outputs: 2, locals: 1, lean: true });
        for size in 1..=most {
            all.each(size, &mut |tokens| {
                if let Ok(block) = decode(&encode_tokens(header_of(1, 2, tokens), tokens), Fault::None) {
                    for phase in phases(&block, usize::MAX) {
                        (0..2).for_each(|given| self.instant(&block, phase, given, chance));
                    }
                }
            });
        }
    }

    /// Random blocks: with few outputs, with many, and such as settle one output by another.
    fn random(&mut self, count: usize, chance: &mut Chance) {
        for n in 0..count {
            // A fault need not be told twice.
            if self.fault != Fault::None && self.tried.bad != 0 {
                return;
            }
            let block = match n % 8 {
                0..=3 => some_mixed_block(chance, 4, 16).1,
                4 | 5 => some_mesh(chance, 6),
                6 => some_mesh(chance, 16),
                _ => {
                    let wish = Wish { outputs: 3 + chance.below(14) as u16, ..Wish::some(chance, 15, 60) };
                    some_block(chance, wish).1
                }
            };
            let (phase, given) = (some_phase(&block, chance), some_inputs(&block, chance));
            self.instant(&block, phase, given, chance);
        }
    }
}

/// Tests of an output beside each other, each of which emits another, so that one settles the next.
fn some_mesh(chance: &mut Chance, most: usize) -> Block {
    let outputs = 3 + chance.below(most - 2);
    let arms = outputs + chance.below(outputs);
    let mut tokens: Vec<Token> = Vec::new();
    for arm in 0..arms {
        if arm + 1 < arms {
            tokens.push((Form::Parallel, 0));
        }
        let signal = |chance: &mut Chance| 1 + chance.below(outputs) as u16;
        let emit = (Form::Emit, signal(chance));
        match chance.below(8) {
            0 => tokens.push(emit),
            1 => tokens.extend([(Form::Present, 0), emit, (Form::Pause, 0)]),
            2 | 3 => tokens.extend([(Form::Present, signal(chance)), (Form::Nothing, 0), emit]),
            4 => tokens.extend([(Form::Sequence, 0), (Form::Suspend, signal(chance)), (Form::Pause, 0), emit]),
            _ => tokens.extend([(Form::Present, signal(chance)), emit, (Form::Nothing, 0)]),
        }
    }
    let bytes = encode_tokens(header_of(1, outputs as u16, &tokens), &tokens);
    decode(&bytes, Fault::None).expect("a mesh is a good block")
}

/// Whether a fault of settling is told by so many random blocks.
fn told(fault: Fault, count: usize, seed: u64) -> bool {
    let mut orders = Orders::new(fault);
    orders.random(count, &mut Chance::new(seed));
    let told = orders.tried.bad != 0;
    if !told {
        println!("{fault:?}: not told apart by {count} blocks ({})", fault.says());
    }
    told
}

/// Every order on all small blocks up to a size and on random ones; false if one ends badly or a fault is missed.
pub fn print_orders(most: usize, count: usize, seed: u64) -> bool {
    let mut orders = Orders::new(Fault::None);
    let mut chance = Chance::new(seed);
    orders.small(most, &mut chance);
    orders.random(count, &mut chance);
    let Tried { orders: tried, bad, longest } = orders.tried;
    orders.failures.iter().take(20).for_each(|row| println!("failed order: {row}"));
    println!("{tried} orders of settling in {} instants, the longest of {longest} steps, {bad} end badly", orders.instants);
    let found = ORDERS.iter().filter(|&&fault| told(fault, count, seed)).count();
    println!("{found} faults of settling told apart, {} not", ORDERS.len() - found);
    bad == 0 && found == ORDERS.len()
}
