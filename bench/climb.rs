//! A search for the slowest block: from the worst shapes, one change at a time, and a change stays where an instant takes longer than before.

use crate::library;
use crate::race::longest;
use crate::shapes::{self, Chain, Shape};
use crate::tree::*;
use std::time::{Duration, Instant};

/// Two minutes, in equal shares for each block that is begun from.
const WHOLE: Duration = Duration::from_secs(120);

/// A change stays where the longest instant takes at least so many times as long.
const MORE: f64 = 1.02;

/// A block that was reached: its signals, its statements, and nanoseconds of its longest instant.
struct Reached {
    signals: Signals,
    tree: Tree,
    block: Vec<u8>,
    time: f64,
}

/// Where the search begins.
fn begins() -> Vec<Shape> {
    vec![shapes::slowest(), shapes::late(6), shapes::mixed(500, 6), shapes::restarts(6), shapes::long_sequences(6)]
}

fn signals_of(block: &[u8]) -> Signals {
    let word = |place: usize| u16::from_le_bytes([block[place], block[place + 1]]);
    Signals { inputs: word(8), outputs: word(10), locals: word(12) }
}

/// Locals are numbered anew in the block's order, and a signal that is none here any more becomes an output.
fn renumber(tree: &mut Tree, signals: &mut Signals, scope: &mut Vec<(u16, u16)>) {
    let first = signals.inputs + signals.outputs;
    let mut entered = false;
    match tree {
        Tree::Local(s, _) => {
            scope.push((*s, first + signals.locals));
            *s = first + signals.locals;
            signals.locals += 1;
            entered = true;
        }
        Tree::Emit(s) | Tree::Present(s, _, _) | Tree::Suspend(s, _) if *s >= first => {
            let here = scope.iter().rev().find(|(old, _)| *old == *s);
            *s = here.map_or(signals.inputs + *s % signals.outputs, |&(_, new)| new);
        }
        _ => {}
    }
    for child in children(tree) {
        renumber(child, signals, scope);
    }
    if entered {
        scope.pop();
    }
}

/// A signal, of whatever kind: `renumber` makes one of the block's of it.
fn signal(chain: &mut Chain, signals: Signals) -> u16 {
    signals.inputs + chain.below(signals.outputs + signals.locals)
}

fn leaf(chain: &mut Chain, signals: Signals) -> Tree {
    match chain.below(5) {
        0 => Tree::Nothing,
        1 => Tree::Exit(chain.below(3)),
        2 => Tree::Emit(signal(chain, signals)),
        _ => Tree::Pause,
    }
}

/// A statement with another around it, or beside it, or after it.
fn around(chain: &mut Chain, signals: Signals, inner: Tree, other: Tree) -> Tree {
    match chain.below(8) {
        0 => trap(inner),
        1 => again(sequence(inner, Tree::Pause)),
        2 => again(inner),
        3 => local(signals.inputs + signals.outputs + signals.locals, inner),
        4 => suspend(signal(chain, signals), inner),
        5 => present(signal(chain, signals), inner, other),
        6 => sequence(inner, other),
        _ => parallel(inner, other),
    }
}

/// One change at a place: a copy from elsewhere, something around it, a leaf, another signal, or one of its parts in its stead.
fn change(chain: &mut Chain, signals: Signals, tree: &mut Tree) {
    let size = count(tree) as u16;
    let other = numbered(tree, usize::from(chain.below(size))).clone();
    let place = numbered(tree, usize::from(chain.below(size)));
    match chain.below(6) {
        0 => *place = other,
        1 | 2 => *place = around(chain, signals, place.clone(), other),
        3 => *place = leaf(chain, signals),
        4 => match place {
            Tree::Emit(s) | Tree::Present(s, _, _) | Tree::Suspend(s, _) => *s = signal(chain, signals),
            _ => *place = leaf(chain, signals),
        },
        _ => {
            let part = children(place).pop().map(|part| part.clone());
            *place = part.unwrap_or_else(|| leaf(chain, signals));
        }
    }
}

/// One block further, where it is a good one and its longest instant takes longer.
fn further(chain: &mut Chain, best: &Reached) -> Option<Reached> {
    let (mut tree, mut signals) = (best.tree.clone(), best.signals);
    for _ in 0..=chain.below(3) {
        change(chain, signals, &mut tree);
    }
    if count(&tree) > 512 {
        return None;
    }
    signals.locals = 0;
    renumber(&mut tree, &mut signals, &mut Vec::new());
    let block = bytes(signals, &tree);
    foldheron::check(&block).ok()?;
    let time = longest(library::instant, &block, 1);
    if time < best.time * MORE {
        return None;
    }
    let time = longest(library::instant, &block, 2);
    (time >= best.time * MORE).then(|| Reached { signals, tree, block, time })
}

/// As far as it goes from one block, and how many were tried on the way.
fn climb(chain: &mut Chain, shape: &Shape, share: Duration) -> (Reached, u32) {
    let block = shape.blocks[0].clone();
    let time = longest(library::instant, &block, 2);
    let mut best = Reached { signals: signals_of(&block), tree: tree_of(&block), block, time };
    let (begun, mut tried) = (Instant::now(), 0);
    while begun.elapsed() < share {
        tried += 1;
        if let Some(better) = further(chain, &best) {
            best = better;
        }
    }
    (best, tried)
}

/// Searches, prints the slowest block that it came to, and writes its bytes to a file.
pub fn print(into: &str) {
    let starts = begins();
    let share = WHOLE / starts.len() as u32;
    let mut chain = Chain(11);
    let mut slowest: Option<Reached> = None;
    for shape in &starts {
        let first = longest(library::instant, &shape.blocks[0], 2);
        let (reached, tried) = climb(&mut chain, shape, share);
        println!("from {}: {} to {}, {} blocks tried", shape.name, crate::told(first), crate::told(reached.time), tried);
        if slowest.as_ref().map_or(true, |so_far| reached.time > so_far.time) {
            slowest = Some(reached);
        }
    }
    let Some(found) = slowest else { return };
    println!("the slowest: {} of processor time in its longest instant, {} statements, in the block's order:", crate::told(found.time), count(&found.tree));
    let mut said = Vec::new();
    words(&found.tree, &mut said);
    println!("{}", said.join(", "));
    match std::fs::write(into, &found.block) {
        Ok(()) => println!("its bytes are in {}", into),
        Err(why) => println!("its bytes could not be written to {}: {}", into, why),
    }
}
