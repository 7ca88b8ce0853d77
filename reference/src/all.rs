//! Every block up to a size over a small alphabet, in preorder.

use std::collections::HashMap;
use std::rc::Rc;

use crate::block::{Form, Statement, Token};

/// Which forms and how many signals the blocks may use.
#[derive(Clone, Copy)]
pub struct Alphabet {
    pub forms: &'static [Form],
    pub inputs: u16,
    pub outputs: u16,
    pub locals: u16,
    /// Leaves out a sequence with nothing on a side and one of two mirrored parallels.
    pub lean: bool,
}

/// Where a statement stands: traps around it, locals around it as bits, the next local's number.
#[derive(Clone, Copy, PartialEq, Eq, Hash)]
struct Place {
    traps: u16,
    scope: u64,
    next: u16,
}

/// A statement with all below it, and the number of the next local after it.
type Entry = (Vec<Token>, u16);

pub struct All {
    alphabet: Alphabet,
    known: HashMap<(usize, Place), Rc<Vec<Entry>>>,
}

impl All {
    pub fn new(alphabet: Alphabet) -> All {
        All { alphabet, known: HashMap::new() }
    }

    /// Visits every tree of just this many statements.
    pub fn each(&mut self, size: usize, visit: &mut dyn FnMut(&[Token])) {
        let next = self.alphabet.inputs + self.alphabet.outputs;
        let place = Place { traps: 0, scope: 0, next };
        self.each_at(size, place, &mut |tokens, _| visit(tokens));
    }

    fn each_at(&mut self, size: usize, place: Place, visit: &mut dyn FnMut(&[Token], u16)) {
        for &form in self.alphabet.forms {
            match form.parts() {
                0 if size == 1 => {
                    for operand in self.operands(form, place) {
                        visit(&[(form, operand)], place.next);
                    }
                }
                1 if size >= 2 => self.each_single(form, size, place, visit),
                2 if size >= 3 => self.each_double(form, size, place, visit),
                _ => {}
            }
        }
    }

    fn list(&mut self, size: usize, place: Place) -> Rc<Vec<Entry>> {
        if let Some(list) = self.known.get(&(size, place)) {
            return Rc::clone(list);
        }
        let mut list = Vec::new();
        self.each_at(size, place, &mut |tokens, next| list.push((tokens.to_vec(), next)));
        let list = Rc::new(list);
        self.known.insert((size, place), Rc::clone(&list));
        list
    }

    /// The operands a form may have here; one 0 where it has none.
    fn operands(&self, form: Form, place: Place) -> Vec<u16> {
        let (inputs, outputs) = (self.alphabet.inputs, self.alphabet.outputs);
        let signals = |from: u16| {
            let locals = (inputs + outputs..place.next).filter(|&s| place.scope >> s & 1 == 1);
            (from..inputs + outputs).chain(locals).collect()
        };
        match form {
            Form::Emit | Form::Sustain => signals(inputs),
            Form::Present | Form::Suspend | Form::Await | Form::Abort => signals(0),
            Form::Exit => (0..place.traps).collect(),
            Form::Local if place.next < inputs + outputs + self.alphabet.locals => vec![place.next],
            Form::Local => Vec::new(),
            _ => vec![0],
        }
    }

    fn each_single(&mut self, form: Form, size: usize, place: Place, visit: &mut dyn FnMut(&[Token], u16)) {
        let mut tokens = Vec::with_capacity(size);
        for operand in self.operands(form, place) {
            let mut below = place;
            below.traps += (form == Form::Trap) as u16;
            if form == Form::Local {
                below.scope |= 1 << operand;
                below.next += 1;
            }
            for (body, next) in self.list(size - 1, below).iter() {
                tokens.clear();
                tokens.push((form, operand));
                tokens.extend_from_slice(body);
                visit(&tokens, *next);
            }
        }
    }

    fn each_double(&mut self, form: Form, size: usize, place: Place, visit: &mut dyn FnMut(&[Token], u16)) {
        let mut tokens = Vec::with_capacity(size);
        for left in 1..size - 1 {
            for (one, next) in self.list(left, place).iter() {
                for (other, next) in self.list(size - 1 - left, Place { next: *next, ..place }).iter() {
                    if self.alphabet.lean && needless(form, one, other) {
                        continue;
                    }
                    for operand in self.operands(form, place) {
                        tokens.clear();
                        tokens.push((form, operand));
                        tokens.extend_from_slice(one);
                        tokens.extend_from_slice(other);
                        visit(&tokens, *next);
                    }
                }
            }
        }
    }
}

/// Shapes that say nothing new where the smallest block is looked for.
fn needless(form: Form, one: &[Token], other: &[Token]) -> bool {
    let idle = |tokens: &[Token]| tokens == [(Form::Nothing, 0)];
    match form {
        Form::Sequence => idle(one) || idle(other),
        Form::Parallel => one.len() > other.len(),
        _ => false,
    }
}

/// Every set of active pauses that may stand together in a statement, at most `most` of them.
pub fn active_sets(p: &Statement, most: usize) -> Vec<u128> {
    let mut sets = if p.form == Form::Pause { vec![p.pauses] } else { Vec::new() };
    let below: Vec<Vec<u128>> = p.parts.iter().map(|part| active_sets(part, most)).collect();
    below.iter().for_each(|part| sets.extend(part));
    if p.form == Form::Parallel {
        for one in &below[0] {
            sets.extend(below[1].iter().map(|other| one | other));
        }
    }
    sets.truncate(most);
    sets
}
