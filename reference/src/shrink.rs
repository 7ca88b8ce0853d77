//! Makes a row that tells something smaller while it still tells it.

use crate::block::{decode, encode_tokens, Block, Form, Token};
use crate::fault::Fault;
use crate::row::{header_of, Row};

/// Gives a row of a block that tells what is looked for, if it has one.
pub type Tells<'a> = &'a dyn Fn(&Block) -> Option<Row>;

/// The row after every step that keeps it telling.
pub fn shrunk(row: Row, tells: Tells) -> Row {
    let mut row = row;
    while let Some(smaller) = step(&row, tells) {
        row = smaller;
    }
    row
}

/// One smaller row that still tells: a statement gives way to one of its parts, or to a leaf.
fn step(row: &Row, tells: Tells) -> Option<Row> {
    for at in 0..row.tokens.len() {
        let end = end_of(&row.tokens, at);
        let mut instead: Vec<Vec<Token>> = Vec::new();
        if end - at > 1 {
            instead.push(vec![(Form::Nothing, 0)]);
            instead.push(vec![(Form::Pause, 0)]);
        }
        let mut part = at + 1;
        for _ in 0..row.tokens[at].0.parts() {
            instead.push(row.tokens[part..end_of(&row.tokens, part)].to_vec());
            part = end_of(&row.tokens, part);
        }
        for middle in instead {
            let tokens = [&row.tokens[..at], &middle[..], &row.tokens[end..]].concat();
            if let Some(smaller) = tried(row.inputs, row.outputs, &tokens, tells) {
                return Some(smaller);
            }
        }
    }
    None
}

/// The place after the statement at this place with all below it.
pub fn end_of(tokens: &[Token], at: usize) -> usize {
    (0..tokens[at].0.parts()).fold(at + 1, |next, _| end_of(tokens, next))
}

/// A row of these statements that tells, if they make a good block.
fn tried(inputs: u16, outputs: u16, tokens: &[Token], tells: Tells) -> Option<Row> {
    let (inputs, outputs, tokens) = renumbered(inputs, outputs, tokens)?;
    let block = decode(&encode_tokens(header_of(inputs, outputs, &tokens), &tokens), Fault::None).ok()?;
    tells(&block)
}

/// Drops signals that are not named and numbers the locals in preorder again.
pub fn renumbered(inputs: u16, outputs: u16, tokens: &[Token]) -> Option<(u16, u16, Vec<Token>)> {
    let names = |s: u16| tokens.iter().any(|token| token.0.names_signal() && token.1 == s);
    let mut numbers: Vec<u16> = (0..inputs).filter(|&s| names(s)).collect();
    let fewer_inputs = numbers.len() as u16;
    numbers.extend((inputs..inputs + outputs).filter(|&s| names(s)));
    let fewer_outputs = numbers.len() as u16 - fewer_inputs;
    numbers.extend(tokens.iter().filter(|token| token.0 == Form::Local).map(|token| token.1));
    let mut renamed = Vec::with_capacity(tokens.len());
    for &(form, operand) in tokens {
        let number = match form.names_signal() {
            true => numbers.iter().position(|&s| s == operand)? as u16,
            false => operand,
        };
        renamed.push((form, number));
    }
    Some((fewer_inputs, fewer_outputs, renamed))
}
