//! Legal blocks of every shape, with legal states and inputs, from a seed.

use crate::all::active_sets;
use crate::block::{decode, encode_tokens, Block, Form, Statement, Token};
use crate::chance::Chance;
use crate::fault::Fault;
use crate::reaction::Phase;
use crate::row::header_of;
use crate::rules::Rules;
use crate::values::signal_bits;

/// What a block is to be like.
#[derive(Clone, Copy)]
pub struct Wish {
    pub size: usize,
    pub inputs: u16,
    pub outputs: u16,
    /// Weights of present, suspend, sequence, loop, parallel, trap, local.
    pub weights: [usize; 7],
    /// The weight of a pause among the leaves.
    pub pauses: usize,
}

const WHOLES: [Form; 7] =
    [Form::Present, Form::Suspend, Form::Sequence, Form::Loop, Form::Parallel, Form::Trap, Form::Local];

/// Balanced; signals that interact; traps that nest; loops that restart scopes; suspends that hold.
const STYLES: [[usize; 7]; 5] = [
    [4, 2, 6, 2, 4, 2, 3],
    [8, 1, 6, 0, 3, 0, 5],
    [4, 1, 5, 2, 5, 7, 2],
    [4, 1, 7, 6, 3, 1, 6],
    [4, 6, 6, 2, 4, 1, 3],
];

impl Wish {
    /// Some style and few signals, so that statements meet on the same ones.
    pub fn some(chance: &mut Chance, least: usize, most: usize) -> Wish {
        Wish {
            size: least + chance.below(most + 1 - least),
            inputs: chance.pick(&[0, 0, 1, 1, 2]),
            outputs: chance.pick(&[0, 1, 1, 1, 2, 2, 3]),
            weights: chance.pick(&STYLES),
            pauses: 3,
        }
    }

    /// Many signals, and many pauses that stand beside each other.
    pub fn wide(chance: &mut Chance) -> Wish {
        Wish {
            size: 200 + chance.below(200),
            inputs: chance.below(30) as u16,
            outputs: 1 + chance.below(30) as u16,
            weights: [2, 1, 3, 1, 7, 1, 1],
            pauses: 9,
        }
    }
}

#[derive(Clone, Copy)]
struct Around {
    path: usize,
    traps: u16,
    nested: usize,
    scope: u64,
}

struct Maker<'a> {
    chance: &'a mut Chance,
    wish: Wish,
    tokens: Vec<Token>,
    pauses: usize,
    next_local: u16,
}

/// A legal block as the wish says; tries until one is good.
pub fn some_block(chance: &mut Chance, wish: Wish) -> (Vec<u8>, Block) {
    loop {
        let next_local = wish.inputs + wish.outputs;
        let mut maker = Maker { chance: &mut *chance, wish, tokens: Vec::new(), pauses: 0, next_local };
        maker.any(wish.size, Around { path: 1, traps: 0, nested: 0, scope: 0 });
        let tokens = maker.tokens;
        let bytes = encode_tokens(header_of(wish.inputs, wish.outputs, &tokens), &tokens);
        if let Ok(block) = decode(&bytes, Fault::None) {
            return (bytes, block);
        }
    }
}

impl<'a> Maker<'a> {
    /// Puts a statement of at most this size.
    fn any(&mut self, size: usize, around: Around) {
        if size < 2 || around.path > 58 {
            return self.leaf(around);
        }
        let form = WHOLES[self.chance.weighed(&self.wish.weights)];
        if size < 1 + form.parts() || !self.may(form, around) {
            return if self.chance.percent(50) { self.any(size, around) } else { self.leaf(around) };
        }
        let below = self.put(form, around);
        if form == Form::Loop {
            return self.halting(size - 1, below);
        }
        if form == Form::Local && size >= 6 && self.chance.percent(60) {
            return self.emitted_and_tested(size - 1, below);
        }
        for part in self.split(size - 1, form.parts()) {
            self.any(part, below);
        }
    }

    /// Puts the body of the last local so that it is emitted on one side and tested on the other.
    fn emitted_and_tested(&mut self, size: usize, around: Around) {
        let s = self.next_local - 1;
        let form = self.chance.pick(&[Form::Sequence, Form::Sequence, Form::Parallel]);
        let below = self.put(form, around);
        if self.chance.percent(80) {
            self.tokens.push((Form::Emit, s));
        } else {
            self.any(2, below);
        }
        let below = self.put(Form::Present, below);
        if let Some(last) = self.tokens.last_mut() {
            last.1 = s;
        }
        for part in self.split(size - 3, 2) {
            self.any(part, below);
        }
    }

    /// Puts a statement that does not complete with 0 when started, as a loop's body must not.
    fn halting(&mut self, size: usize, around: Around) {
        if size < 3 || around.path > 58 {
            return self.stop(around);
        }
        let form = WHOLES[self.chance.weighed(&[2, 1, 8, 1, 2, 1, 5])];
        if !self.may(form, around) {
            return self.stop(around);
        }
        let below = self.put(form, around);
        let sizes = self.split(size - 1, form.parts());
        // One part of a sequence or a parallel is enough; every other whole needs all of them.
        let free = match form {
            Form::Sequence | Form::Parallel => self.chance.below(2),
            _ => 2,
        };
        for (n, &part) in sizes.iter().enumerate() {
            if n == free { self.any(part, below) } else { self.halting(part, below) }
        }
    }

    fn stop(&mut self, around: Around) {
        if around.traps > 0 && (self.pauses >= 128 || self.chance.percent(25)) {
            let depth = self.chance.below(around.traps as usize) as u16;
            return self.tokens.push((Form::Exit, depth));
        }
        self.pauses += 1;
        self.tokens.push((Form::Pause, 0));
    }

    fn leaf(&mut self, around: Around) {
        let emitted = self.signal(around, self.wish.inputs);
        let weights = [
            1,
            if self.pauses < 128 { self.wish.pauses } else { 0 },
            if emitted.is_some() { 5 } else { 0 },
            if around.traps > 0 { 2 } else { 0 },
        ];
        match self.chance.weighed(&weights) {
            0 => self.tokens.push((Form::Nothing, 0)),
            1 => {
                self.pauses += 1;
                self.tokens.push((Form::Pause, 0));
            }
            2 => self.tokens.push((Form::Emit, emitted.unwrap_or(0))),
            _ => {
                let depth = self.chance.below(around.traps as usize) as u16;
                self.tokens.push((Form::Exit, depth));
            }
        }
    }

    /// Whether a form may stand here.
    fn may(&mut self, form: Form, around: Around) -> bool {
        match form {
            Form::Present | Form::Suspend => self.wish.inputs + self.wish.outputs > 0 || around.scope != 0,
            Form::Loop => self.pauses < 100,
            Form::Trap => around.traps < 16,
            Form::Local => around.nested < 6 && self.next_local < 64,
            _ => true,
        }
    }

    /// Puts a statement that has children, and gives what stands around them.
    fn put(&mut self, form: Form, around: Around) -> Around {
        let mut below = Around { path: around.path + 1, ..around };
        let operand = match form {
            Form::Local => self.next_local,
            Form::Present | Form::Suspend => self.signal(around, 0).unwrap_or(0),
            _ => 0,
        };
        if form == Form::Local {
            below.scope |= 1 << operand;
            below.nested += 1;
            self.next_local += 1;
        }
        below.traps += (form == Form::Trap) as u16;
        self.tokens.push((form, operand));
        below
    }

    /// A signal from this number on: half the time a local of the place, more often an output than an input.
    fn signal(&mut self, around: Around, from: u16) -> Option<u16> {
        let (inputs, outputs) = (self.wish.inputs, self.wish.outputs);
        let locals: Vec<u16> = (0..64).filter(|&s| around.scope >> s & 1 == 1).collect();
        if !locals.is_empty() && self.chance.percent(50) {
            return Some(self.chance.pick(&locals));
        }
        if outputs > 0 && (from >= inputs || self.chance.percent(70)) {
            return Some(inputs + self.chance.below(outputs as usize) as u16);
        }
        if from < inputs {
            return Some(self.chance.below(inputs as usize) as u16);
        }
        locals.last().copied()
    }

    /// Sizes for so many children, none of them 0.
    fn split(&mut self, size: usize, parts: usize) -> Vec<usize> {
        if parts < 2 {
            return vec![size];
        }
        let left = 1 + self.chance.below((size - 1).max(1));
        vec![left, (size - left.min(size)).max(1)]
    }
}

/// One set of active pauses that may stand together.
pub fn some_active(p: &Statement, chance: &mut Chance) -> u128 {
    if p.form == Form::Pause {
        return p.pauses;
    }
    let parts: Vec<&Statement> = p.parts.iter().filter(|part| part.pauses != 0).collect();
    if parts.is_empty() {
        return 0;
    }
    if p.form == Form::Parallel && chance.percent(60) {
        return parts.iter().fold(0, |all, part| all | some_active(part, chance));
    }
    let part = chance.pick(&parts);
    some_active(part, chance)
}

/// A legal set of inputs.
pub fn some_inputs(block: &Block, chance: &mut Chance) -> u64 {
    chance.number() & signal_bits(0, block.header.inputs)
}

/// A legal state: fresh, finished, reached by running, or any set that may stand.
pub fn some_phase(block: &Block, chance: &mut Chance) -> Phase {
    match chance.weighed(&[3, 1, 4, 4]) {
        0 => Phase::Fresh,
        1 => Phase::Finished,
        2 => {
            let rules = Rules { fault: Fault::None };
            let steps = 1 + chance.below(4);
            (0..steps).fold(Phase::Fresh, |phase, _| rules.react(block, phase, some_inputs(block, chance)).next)
        }
        _ => match some_active(&block.root, chance) {
            0 => Phase::Fresh,
            active => Phase::Running(active),
        },
    }
}

/// Every legal state, up to a number of running ones.
pub fn phases(block: &Block, most: usize) -> Vec<Phase> {
    let running = active_sets(&block.root, most).into_iter().map(Phase::Running);
    [Phase::Fresh].iter().copied().chain(running).chain([Phase::Finished].iter().copied()).collect()
}
