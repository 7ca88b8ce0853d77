//! Known blocks with a few random changes, so that rare rules are met often.

use crate::block::{decode, encode_tokens, Block, Form, Token};
use crate::chance::Chance;
use crate::fault::Fault;
use crate::generate::{some_block, Wish};
use crate::known::known_blocks;
use crate::row::header_of;
use crate::shrink::{end_of, renumbered};

/// A block grown from nothing or a changed known one.
pub fn some_mixed_block(chance: &mut Chance, least: usize, most: usize) -> (Vec<u8>, Block) {
    if chance.percent(60) {
        let wish = Wish::some(chance, least, most);
        return some_block(chance, wish);
    }
    loop {
        let (inputs, outputs, tokens) = changed(chance);
        let bytes = encode_tokens(header_of(inputs, outputs, &tokens), &tokens);
        if let Ok(block) = decode(&bytes, Fault::None) {
            return (bytes, block);
        }
    }
}

/// A block after up to three changes, with the same inputs and outputs, or as it was where they spoil it.
pub fn altered(block: &Block, chance: &mut Chance) -> Block {
    let (inputs, outputs) = (block.header.inputs, block.header.outputs);
    let mut tokens = block.root.tokens();
    for _ in 0..1 + chance.below(3) {
        change(&mut tokens, inputs, outputs, chance);
    }
    let (_, _, tokens) = renumbered(inputs, outputs, &tokens).unwrap_or((inputs, outputs, tokens));
    decode(&encode_tokens(header_of(inputs, outputs, &tokens), &tokens), Fault::None).unwrap_or_else(|_| block.clone())
}

/// A known block after up to four changes; it need not be good.
fn changed(chance: &mut Chance) -> (u16, u16, Vec<Token>) {
    let known = known_blocks();
    let (inputs, outputs, mut tokens) = known[chance.below(known.len())].clone();
    // One output more than it had, so that a new one can be met too.
    let more = outputs + chance.below(2) as u16;
    tokens.iter_mut().filter(|t| t.0.names_signal() && t.1 >= inputs + outputs).for_each(|t| t.1 += more - outputs);
    for _ in 0..chance.below(5) {
        change(&mut tokens, inputs, more, chance);
    }
    renumbered(inputs, more, &tokens).unwrap_or((inputs, more, tokens))
}

/// One change: another operand, a leaf or a part instead of a statement, a whole around it, or another join.
fn change(tokens: &mut Vec<Token>, inputs: u16, outputs: u16, chance: &mut Chance) {
    let at = chance.below(tokens.len());
    let end = end_of(tokens, at);
    let (form, operand) = tokens[at];
    let locals = tokens.iter().filter(|token| token.0 == Form::Local).count() as u16;
    let signal = chance.below((inputs + outputs + locals).max(1) as usize) as u16;
    let leaf = chance.pick(&[(Form::Nothing, 0), (Form::Pause, 0), (Form::Emit, signal)]);
    let old = tokens[at..end].to_vec();
    let instead: Vec<Token> = match chance.below(6) {
        0 if form != Form::Local => {
            let number = if form == Form::Exit { operand ^ 1 } else { signal };
            [&[(form, number)][..], &old[1..]].concat()
        }
        1 => vec![leaf],
        2 if form.parts() > 0 => old[1..end_of(&old, 1)].to_vec(),
        3 => wrapped(&old, leaf, signal, chance),
        4 if form == Form::Sequence => [&[(Form::Parallel, 0)][..], &old[1..]].concat(),
        4 if form == Form::Parallel => [&[(Form::Sequence, 0)][..], &old[1..]].concat(),
        5 if form.parts() == 2 => {
            let middle = end_of(&old, 1);
            [&old[..1], &old[middle..], &old[1..middle]].concat()
        }
        _ => old,
    };
    tokens.splice(at..end, instead);
}

fn wrapped(old: &[Token], leaf: Token, signal: u16, chance: &mut Chance) -> Vec<Token> {
    let around = chance.pick(&[Form::Sequence, Form::Parallel, Form::Trap, Form::Suspend, Form::Present, Form::Loop]);
    let operand = if around.names_signal() { signal } else { 0 };
    match around.parts() {
        1 => [&[(around, operand)][..], old].concat(),
        _ if chance.percent(50) => [&[(around, operand), leaf][..], old].concat(),
        _ => [&[(around, operand)][..], old, &[leaf][..]].concat(),
    }
}
