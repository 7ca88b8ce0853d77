//! Every refusal of a block at its boundary, with the number and place worked out by hand.

use crate::block::{encode_tokens, Form, Header, Token};
use crate::edge_limits::limit_edges;
use crate::row::header_of;
use crate::text::read_statement;

/// A block and what its check gives.
pub struct Edge {
    pub name: String,
    pub bytes: Vec<u8>,
    pub number: u16,
    pub place: usize,
}

pub fn edge(name: &str, bytes: Vec<u8>, number: u16, place: usize) -> Edge {
    Edge { name: name.to_string(), bytes, number, place }
}

/// The block of a statement in text, with just the locals it declares.
pub fn block_of(inputs: u16, outputs: u16, text: &str) -> Vec<u8> {
    let tokens = read_statement(text);
    encode_tokens(header_of(inputs, outputs, &tokens), &tokens)
}

/// A block with these counts in its header, whatever its statements use.
pub fn counted(inputs: u16, outputs: u16, locals: u16, tokens: &[Token]) -> Vec<u8> {
    encode_tokens(Header { version: 7, inputs, outputs, locals }, tokens)
}

/// The same bytes with a word at an offset set.
pub fn set(bytes: &[u8], at: usize, word: u16) -> Vec<u8> {
    let mut bytes = bytes.to_vec();
    bytes[at..at + 2].copy_from_slice(&word.to_le_bytes());
    bytes
}

pub fn with_more(bytes: &[u8], more: &[u8]) -> Vec<u8> {
    [bytes, more].concat()
}

pub fn edge_blocks() -> Vec<Edge> {
    let mut edges = header_edges();
    edges.extend(record_edges());
    edges.extend(signal_edges());
    edges.extend(scope_edges());
    edges.extend(shape_edges());
    edges.extend(loop_edges());
    edges.extend(limit_edges());
    edges
}

/// BROKEN, KIND and EDITION of the header.
fn header_edges() -> Vec<Edge> {
    let good = block_of(1, 1, "nothing");
    let mut edges: Vec<Edge> = (0..14).map(|n| edge("header cut", good[..n].to_vec(), 1, 0)).collect();
    for (length, number) in [(0, 1), (3, 1), (4, 2), (12, 2), (13, 2), (14, 0), (15, 2), (18, 2), (19, 1), (65535, 1)] {
        edges.push(edge("header length", set(&good, 0, length), number, 0));
    }
    for (kind, number) in [(0, 2), (1, 0), (2, 2), (16, 2), (257, 2)] {
        edges.push(edge("header kind", set(&good, 2, kind), number, 0));
    }
    for (edition, number) in [(0, 3), (1, 0), (2, 3), (257, 3)] {
        edges.push(edge("edition", set(&good, 4, edition), number, 0));
    }
    for version in [0, 1, 65535] {
        edges.push(edge("any version", set(&good, 6, version), 0, 0));
    }
    let wrong = set(&set(&good, 4, 2), 8, 65);
    edges.push(edge("EDITION before LIMIT", wrong.clone(), 3, 0));
    edges.push(edge("KIND before EDITION", set(&wrong, 2, 2), 2, 0));
    edges.push(edge("BROKEN before KIND", set(&set(&wrong, 2, 2), 0, 3), 1, 0));
    edges
}

/// BROKEN, KIND and SHAPE where a statement is due.
fn record_edges() -> Vec<Edge> {
    let good = block_of(1, 1, "nothing");
    let mut edges = vec![edge("no statement", good[..14].to_vec(), 7, 14)];
    edges.extend((15..18).map(|n| edge("statement cut", good[..n].to_vec(), 1, 14)));
    for (length, number) in [(0, 1), (3, 1), (4, 0), (5, 1), (6, 1), (65535, 1)] {
        edges.push(edge("statement length", set(&good, 14, length), number, if number == 0 { 0 } else { 14 }));
    }
    for length in [5, 6, 8] {
        let longer = with_more(&set(&good, 14, length), &[0, 0, 0, 0]);
        edges.push(edge("length of another kind", longer, 2, 14));
    }
    for kind in [0, 1, 2, 3, 15, 27, 272, 65535] {
        edges.push(edge("kind", set(&good, 16, kind), 2, 14));
    }
    for kind in [16, 17] {
        edges.push(edge("leaf kind", set(&good, 16, kind), 0, 0));
    }
    for kind in [21, 22, 23, 24] {
        edges.push(edge("children due", set(&good, 16, kind), 7, 18));
    }
    for kind in [18, 19, 20, 25, 26] {
        edges.push(edge("operand due", set(&good, 16, kind), 2, 14));
    }
    let emit = block_of(1, 1, "(emit 1)");
    edges.push(edge("operand cut", emit[..19].to_vec(), 1, 14));
    edges.push(edge("emit with length 4", set(&emit, 14, 4), 2, 14));
    for kind in [16, 17, 21, 22, 23, 24] {
        edges.push(edge("operand not due", set(&emit, 16, kind), 2, 14));
    }
    edges.push(edge("BROKEN before KIND", set(&set(&good, 16, 27), 14, 5), 1, 14));
    edges.push(edge("second child cut", block_of(0, 0, "(seq nothing nothing)")[..23].to_vec(), 1, 22));
    edges.push(edge("second child missing", block_of(0, 0, "(seq nothing nothing)")[..22].to_vec(), 7, 22));
    edges
}

/// SIGNAL by number.
fn signal_edges() -> Vec<Edge> {
    let leaf = |form: Form, operand: u16| vec![(form, operand)];
    let test = |form: Form, operand: u16| {
        let mut tokens = vec![(form, operand)];
        tokens.extend(vec![(Form::Nothing, 0); form.parts()]);
        tokens
    };
    let mut edges = Vec::new();
    for (signal, number) in [(0, 5), (1, 5), (2, 0), (4, 0), (5, 5), (64, 5), (65535, 5)] {
        let place = if number == 0 { 0 } else { 14 };
        edges.push(edge("emit", counted(2, 3, 0, &leaf(Form::Emit, signal)), number, place));
    }
    for form in [Form::Present, Form::Suspend] {
        for (signal, number) in [(0, 0), (4, 0), (5, 5), (64, 5), (128, 5), (65535, 5)] {
            let place = if number == 0 { 0 } else { 14 };
            edges.push(edge("test", counted(2, 3, 0, &test(form, signal)), number, place));
        }
    }
    for (signal, number) in [(4, 5), (5, 0), (6, 5), (0, 5), (65535, 5)] {
        let place = if number == 0 { 0 } else { 14 };
        edges.push(edge("local's number", counted(2, 3, 1, &test(Form::Local, signal)), number, place));
    }
    edges
}

/// Locals in and out of their bodies, and EXIT.
fn scope_edges() -> Vec<Edge> {
    let mut edges = Vec::new();
    let both = |text: &str, number: u16, place: usize| edge(text, block_of(0, 0, text), number, place);
    edges.push(both("(seq (local 0 (emit 0)) (local 1 (emit 1)))", 0, 0));
    edges.push(both("(seq (local 0 nothing) (emit 0))", 5, 28));
    edges.push(both("(seq (emit 0) (local 0 nothing))", 5, 18));
    edges.push(both("(seq (local 0 nothing) (local 1 (emit 0)))", 5, 34));
    edges.push(both("(seq (local 0 nothing) (suspend 0 nothing))", 5, 28));
    edges.push(both("(local 0 (local 1 (seq (emit 0) (emit 1))))", 0, 0));
    edges.push(both("(local 0 (local 0 nothing))", 5, 20));
    edges.push(both("(local 1 (local 0 nothing))", 5, 14));
    edges.push(both("(local 0 (present 1 nothing nothing))", 5, 20));
    edges.push(edge("local beyond the count", counted(0, 0, 0, &read_statement("(local 0 nothing)")), 5, 14));
    edges.push(edge("65th by a local", counted(0, 64, 0, &read_statement("(local 64 nothing)")), 5, 14));
    edges.push(both("(exit 0)", 6, 14));
    edges.push(both("(trap (exit 0))", 0, 0));
    edges.push(both("(trap (exit 1))", 6, 18));
    edges.push(both("(trap (exit 65535))", 6, 18));
    edges.push(both("(trap (trap (exit 1)))", 0, 0));
    edges.push(both("(trap (trap (exit 2)))", 6, 22));
    edges.push(both("(seq (trap nothing) (exit 0))", 6, 26));
    edges
}

/// SHAPE after the tree, and its order with what stands before it.
fn shape_edges() -> Vec<Edge> {
    let good = block_of(0, 1, "(seq pause (emit 0))");
    let mut edges = Vec::new();
    for more in 1..8 {
        edges.push(edge("bytes after the tree", with_more(&good, &vec![0; more]), 7, 28));
    }
    edges.push(edge("a statement after the tree", with_more(&good, &[4, 0, 16, 0]), 7, 28));
    edges.push(edge("fewer locals", counted(0, 0, 1, &read_statement("nothing")), 7, 18));
    edges.push(edge("one local of two", counted(0, 0, 2, &read_statement("(local 0 nothing)")), 7, 24));
    edges.push(edge("SHAPE before LOOP", counted(0, 0, 1, &read_statement("(loop nothing)")), 7, 22));
    edges.push(edge("bytes before LOOP", with_more(&block_of(0, 0, "(loop nothing)"), &[0]), 7, 22));
    for cut in [14, 18, 22] {
        edges.push(edge("cut at a record", good[..cut].to_vec(), 7, cut));
    }
    edges
}

/// LOOP: which loops it names and which it lets pass.
fn loop_edges() -> Vec<Edge> {
    let list: [(&str, u16, usize); 21] = [
        ("(loop nothing)", 8, 14),
        ("(loop (emit 1))", 8, 14),
        ("(loop pause)", 0, 0),
        ("(loop (loop nothing))", 8, 18),
        ("(loop (seq (loop nothing) nothing))", 8, 22),
        ("(loop (present 0 pause nothing))", 8, 14),
        ("(loop (present 0 pause pause))", 0, 0),
        ("(loop (local 2 (present 2 nothing pause)))", 8, 14),
        ("(loop (suspend 0 nothing))", 8, 14),
        ("(loop (par nothing nothing))", 8, 14),
        ("(loop (par nothing pause))", 0, 0),
        ("(loop (trap (exit 0)))", 8, 14),
        ("(trap (loop (exit 0)))", 0, 0),
        ("(loop (trap (loop (exit 0))))", 8, 14),
        ("(trap (loop (trap (exit 1))))", 0, 0),
        ("(loop (trap (par (exit 0) pause)))", 8, 14),
        ("(seq (loop pause) (loop nothing))", 8, 26),
        ("(seq (loop nothing) (loop nothing))", 8, 18),
        ("(loop (par (loop nothing) nothing))", 8, 22),
        ("(loop (trap (par (loop nothing) (exit 0))))", 8, 26),
        ("(loop (seq nothing (seq pause nothing)))", 0, 0),
    ];
    list.iter().map(|&(text, number, place)| edge(text, block_of(1, 1, text), number, place)).collect()
}
