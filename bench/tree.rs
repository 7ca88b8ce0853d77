//! Statements as a tree, and the bytes of the block that they make.

#[derive(Clone)]
pub enum Tree {
    Nothing,
    Pause,
    Emit(u16),
    Exit(u16),
    Present(u16, Box<Tree>, Box<Tree>),
    Suspend(u16, Box<Tree>),
    Sequence(Box<Tree>, Box<Tree>),
    Parallel(Box<Tree>, Box<Tree>),
    Loop(Box<Tree>),
    Trap(Box<Tree>),
    Local(u16, Box<Tree>),
}

use Tree::*;

pub fn present(s: u16, then: Tree, other: Tree) -> Tree {
    Present(s, Box::new(then), Box::new(other))
}

pub fn sequence(first: Tree, second: Tree) -> Tree {
    Sequence(Box::new(first), Box::new(second))
}

pub fn parallel(one: Tree, other: Tree) -> Tree {
    Parallel(Box::new(one), Box::new(other))
}

pub fn local(s: u16, body: Tree) -> Tree {
    Local(s, Box::new(body))
}

pub fn suspend(s: u16, body: Tree) -> Tree {
    Suspend(s, Box::new(body))
}

pub fn trap(body: Tree) -> Tree {
    Trap(Box::new(body))
}

pub fn again(body: Tree) -> Tree {
    Loop(Box::new(body))
}

/// Parts one beside the other, the tree of parallels as shallow as it can be.
pub fn all_beside(mut parts: Vec<Tree>) -> Tree {
    while parts.len() > 1 {
        let mut paired = Vec::new();
        let mut rest = parts.into_iter();
        while let Some(one) = rest.next() {
            paired.push(match rest.next() {
                Some(other) => parallel(one, other),
                None => one,
            });
        }
        parts = paired;
    }
    parts.pop().unwrap_or(Nothing)
}

/// How many signals of each kind a block declares.
#[derive(Clone, Copy)]
pub struct Signals {
    pub inputs: u16,
    pub outputs: u16,
    pub locals: u16,
}

/// The bytes of a block; locals have to be numbered in preorder in the tree.
pub fn bytes(signals: Signals, root: &Tree) -> Vec<u8> {
    let mut out = Vec::new();
    for word in [14, 1, 1, 1, signals.inputs, signals.outputs, signals.locals] {
        put(&mut out, word);
    }
    write(&mut out, root);
    out
}

fn put(out: &mut Vec<u8>, word: u16) {
    out.extend_from_slice(&word.to_le_bytes());
}

fn record(out: &mut Vec<u8>, kind: u16, operand: Option<u16>) {
    put(out, if operand.is_some() { 6 } else { 4 });
    put(out, kind);
    if let Some(operand) = operand {
        put(out, operand);
    }
}

fn write(out: &mut Vec<u8>, tree: &Tree) {
    match tree {
        Nothing => record(out, 16, None),
        Pause => record(out, 17, None),
        Emit(s) => record(out, 18, Some(*s)),
        Exit(depth) => record(out, 25, Some(*depth)),
        Present(s, _, _) => record(out, 19, Some(*s)),
        Suspend(s, _) => record(out, 20, Some(*s)),
        Sequence(_, _) => record(out, 21, None),
        Loop(_) => record(out, 22, None),
        Parallel(_, _) => record(out, 23, None),
        Trap(_) => record(out, 24, None),
        Local(s, _) => record(out, 26, Some(*s)),
    }
    match tree {
        Present(_, one, other) | Sequence(one, other) | Parallel(one, other) => {
            write(out, one);
            write(out, other);
        }
        Suspend(_, body) | Loop(body) | Trap(body) | Local(_, body) => write(out, body),
        _ => {}
    }
}

/// How many statements there are.
pub fn count(tree: &Tree) -> usize {
    1 + match tree {
        Present(_, one, other) | Sequence(one, other) | Parallel(one, other) => count(one) + count(other),
        Suspend(_, body) | Loop(body) | Trap(body) | Local(_, body) => count(body),
        _ => 0,
    }
}

/// The statements of a block's bytes.
pub fn tree_of(block: &[u8]) -> Tree {
    let mut at = HEADER;
    read(block, &mut at)
}

/// The bytes of a header.
const HEADER: usize = 14;

fn read(block: &[u8], at: &mut usize) -> Tree {
    let word = |place: usize| u16::from_le_bytes([block[place], block[place + 1]]);
    let (begun, kind) = (*at, word(*at + 2));
    let operand = || word(begun + 4);
    *at += usize::from(word(begun));
    match kind {
        16 => Nothing,
        17 => Pause,
        18 => Emit(operand()),
        19 => {
            let then = read(block, at);
            present(operand(), then, read(block, at))
        }
        20 => suspend(operand(), read(block, at)),
        21 => {
            let first = read(block, at);
            sequence(first, read(block, at))
        }
        22 => again(read(block, at)),
        23 => {
            let one = read(block, at);
            parallel(one, read(block, at))
        }
        24 => trap(read(block, at)),
        25 => Exit(operand()),
        _ => local(operand(), read(block, at)),
    }
}

/// The children, in their order.
pub fn children(tree: &mut Tree) -> Vec<&mut Tree> {
    match tree {
        Present(_, one, other) | Sequence(one, other) | Parallel(one, other) => vec![one, other],
        Suspend(_, body) | Loop(body) | Trap(body) | Local(_, body) => vec![body],
        _ => Vec::new(),
    }
}

/// The statement of that number, counted from the root as the block counts them.
pub fn numbered(tree: &mut Tree, n: usize) -> &mut Tree {
    if n == 0 {
        return tree;
    }
    let mut left = n - 1;
    for child in children(tree) {
        let size = count(child);
        if left < size {
            return numbered(child, left);
        }
        left -= size;
    }
    unreachable!("a statement has the number of one of its parts")
}

/// A statement and all below it in words, in the block's order.
pub fn words(tree: &Tree, out: &mut Vec<String>) {
    out.push(match tree {
        Nothing => "nothing".to_string(),
        Pause => "pause".to_string(),
        Emit(s) => format!("emit {}", s),
        Exit(depth) => format!("exit {}", depth),
        Present(s, _, _) => format!("present {}", s),
        Suspend(s, _) => format!("suspend {}", s),
        Sequence(_, _) => "sequence".to_string(),
        Parallel(_, _) => "parallel".to_string(),
        Loop(_) => "loop".to_string(),
        Trap(_) => "trap".to_string(),
        Local(s, _) => format!("local {}", s),
    });
    match tree {
        Present(_, one, other) | Sequence(one, other) | Parallel(one, other) => {
            words(one, out);
            words(other, out);
        }
        Suspend(_, body) | Loop(body) | Trap(body) | Local(_, body) => words(body, out),
        _ => {}
    }
}
