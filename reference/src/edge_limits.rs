//! LIMIT at each of its numbers: just reached, passed by one, and beside the other refusals.

use crate::block::{Form, Token};
use crate::edges::{counted, edge, Edge};

/// A balanced tree of so many leaves under one form that joins two.
fn joined(join: Token, leaf: Token, leaves: usize) -> Vec<Token> {
    if leaves == 1 {
        return vec![leaf];
    }
    let left = leaves / 2;
    [vec![join], joined(join, leaf, left), joined(join, leaf, leaves - left)].concat()
}

/// So many of one statement inside each other around an inner one.
fn nested(around: Token, times: usize, inner: &[Token]) -> Vec<Token> {
    [vec![around; times], inner.to_vec()].concat()
}

/// Locals inside each other, numbered from 0.
fn nested_locals(times: u16) -> Vec<Token> {
    let mut tokens: Vec<Token> = (0..times).map(|n| (Form::Local, n)).collect();
    tokens.push((Form::Nothing, 0));
    tokens
}

const NOTHING: Token = (Form::Nothing, 0);
const SEQUENCE: Token = (Form::Sequence, 0);
const TRAP: Token = (Form::Trap, 0);

pub fn limit_edges() -> Vec<Edge> {
    let mut edges = signal_counts();
    edges.extend(statement_counts());
    edges.extend(nestings());
    edges.extend(sizes());
    edges
}

fn signal_counts() -> Vec<Edge> {
    let mut edges = Vec::new();
    for (inputs, outputs, number) in
        [(64, 0, 0), (0, 64, 0), (32, 32, 0), (65, 0, 4), (0, 65, 4), (33, 32, 4), (65535, 1, 4), (1, 65535, 4)]
    {
        edges.push(edge("signals", counted(inputs, outputs, 0, &[NOTHING]), number, 0));
    }
    edges.push(edge("signals with locals", counted(32, 31, 1, &[(Form::Local, 63), NOTHING]), 0, 0));
    edges.push(edge("65 with locals", counted(32, 32, 1, &[(Form::Local, 64), NOTHING]), 4, 0));
    edges.push(edge("a sum past 16 bits", counted(65535, 65535, 2, &[NOTHING]), 4, 0));
    // 64 locals beside each other, each numbered in its turn.
    let mut tokens = joined(SEQUENCE, (Form::Local, 0), 64);
    let mut next = 0;
    let mut whole = Vec::new();
    for token in tokens.drain(..) {
        whole.push(if token.0 == Form::Local { (Form::Local, next) } else { token });
        if token.0 == Form::Local {
            next += 1;
            whole.push(NOTHING);
        }
    }
    edges.push(edge("64 locals beside each other", counted(0, 0, 64, &whole), 0, 0));
    edges
}

fn statement_counts() -> Vec<Edge> {
    let full = nested(TRAP, 1, &joined(SEQUENCE, NOTHING, 256));
    let over = joined(SEQUENCE, NOTHING, 257);
    let last = 14 + 4 * 512;
    let cut = |n: usize| counted(0, 0, 0, &over)[..last + n].to_vec();
    let mut edges = vec![
        edge("512 statements", counted(0, 0, 0, &full), 0, 0),
        edge("513 statements", counted(0, 0, 0, &over), 4, last),
        edge("the 513th missing", cut(0), 7, last),
        edge("the 513th cut", cut(1), 1, last),
        edge("the 513th cut", cut(3), 1, last),
    ];
    let mut kind = cut(4);
    kind[last + 2] = 27;
    edges.push(edge("the 513th of no kind", kind, 2, last));
    let mut length = cut(4);
    length[last] = 5;
    edges.push(edge("the 513th too long", length, 1, last));
    let mut undeclared = joined(SEQUENCE, NOTHING, 257);
    undeclared[512] = (Form::Emit, 9);
    edges.push(edge("LIMIT before SIGNAL", counted(0, 0, 0, &undeclared), 4, last));
    undeclared[512] = (Form::Exit, 9);
    edges.push(edge("LIMIT before EXIT", counted(0, 0, 0, &undeclared), 4, last));
    let pause = (Form::Pause, 0);
    edges.push(edge("128 pauses", counted(0, 0, 0, &joined(SEQUENCE, pause, 128)), 0, 0));
    edges.push(edge("129 pauses", counted(0, 0, 0, &joined(SEQUENCE, pause, 129)), 4, 14 + 4 * 256));
    edges
}

fn nestings() -> Vec<Edge> {
    let mut edges = vec![
        edge("16 traps", counted(0, 0, 0, &nested(TRAP, 16, &[(Form::Exit, 15)])), 0, 0),
        edge("depth 16 under 16 traps", counted(0, 0, 0, &nested(TRAP, 16, &[(Form::Exit, 16)])), 6, 14 + 4 * 16),
        edge("17 traps", counted(0, 0, 0, &nested(TRAP, 17, &[NOTHING])), 4, 14 + 4 * 16),
        edge("6 locals", counted(0, 0, 6, &nested_locals(6)), 0, 0),
        edge("7 locals", counted(0, 0, 7, &nested_locals(7)), 4, 14 + 6 * 6),
        edge("7 locals of 6", counted(0, 0, 6, &nested_locals(7)), 4, 14 + 6 * 6),
        edge("6 locals of 5", counted(0, 0, 5, &nested_locals(6)), 5, 14 + 6 * 5),
    ];
    // Traps beside each other do not nest.
    let beside: Vec<Token> =
        joined(SEQUENCE, TRAP, 17).iter().flat_map(|&t| if t == TRAP { vec![t, NOTHING] } else { vec![t] }).collect();
    edges.push(edge("17 traps beside each other", counted(0, 0, 0, &beside), 0, 0));
    let held = (Form::Suspend, 0);
    edges.push(edge("64 on a path", counted(1, 0, 0, &nested(held, 63, &[NOTHING])), 0, 0));
    edges.push(edge("65 on a path", counted(1, 0, 0, &nested(held, 64, &[NOTHING])), 4, 14 + 6 * 64));
    let undeclared = nested(held, 64, &[(Form::Emit, 0)]);
    edges.push(edge("a path before an input emitted", counted(1, 0, 0, &undeclared), 4, 14 + 6 * 64));
    edges
}

fn sizes() -> Vec<Edge> {
    // 512 statements of 6 bytes each: the largest good block.
    let present = joined((Form::Present, 0), (Form::Emit, 0), 256);
    let largest = counted(0, 1, 0, &nested((Form::Suspend, 0), 1, &present));
    let over = [&largest[..], &[0][..]].concat();
    vec![
        edge("3,086 bytes", largest, 0, 0),
        edge("3,087 bytes", over, 4, 0),
        edge("3,086 zeros", vec![0; 3086], 1, 0),
        edge("3,087 zeros", vec![0; 3087], 4, 0),
        edge("65,536 zeros", vec![0; 65536], 4, 0),
    ]
}
