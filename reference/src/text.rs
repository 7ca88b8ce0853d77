//! Statements as text: fully parenthesised words, read and written.

use crate::block::{Form, Token};

const WORDS: [(Form, &str); 15] = [
    (Form::Nothing, "nothing"),
    (Form::Pause, "pause"),
    (Form::Emit, "emit"),
    (Form::Present, "present"),
    (Form::Suspend, "suspend"),
    (Form::Sequence, "seq"),
    (Form::Loop, "loop"),
    (Form::Parallel, "par"),
    (Form::Trap, "trap"),
    (Form::Exit, "exit"),
    (Form::Local, "local"),
    (Form::Halt, "halt"),
    (Form::Sustain, "sustain"),
    (Form::Await, "await"),
    (Form::Abort, "abort"),
];

/// Writes the statements of a block in preorder as one expression; pauses show their numbers.
pub fn write_statement(tokens: &[Token]) -> String {
    let mut text = String::new();
    let mut pauses = 0;
    write_from(tokens, 0, &mut pauses, &mut text);
    text
}

/// Writes the statement at a place in preorder and gives the place after it.
fn write_from(tokens: &[Token], at: usize, pauses: &mut usize, text: &mut String) -> usize {
    let (form, operand) = tokens[at];
    let word = WORDS[form as usize].1;
    if form == Form::Nothing {
        text.push_str(word);
        return at + 1;
    }
    text.push('(');
    text.push_str(word);
    if form == Form::Pause {
        text.push_str(&format!(" {pauses}"));
        *pauses += 1;
    }
    if form.has_operand() {
        text.push_str(&format!(" {operand}"));
    }
    let mut next = at + 1;
    for _ in 0..form.parts() {
        text.push(' ');
        next = write_from(tokens, next, pauses, text);
    }
    text.push(')');
    next
}

/// Reads an expression; a pause may leave its number out, for it follows from its place.
pub fn read_statement(text: &str) -> Vec<Token> {
    let spaced = text.replace(&['(', ')'][..], " ");
    let words: Vec<&str> = spaced.split_whitespace().collect();
    let mut tokens = Vec::new();
    let mut at = 0;
    while at < words.len() {
        let form = WORDS.iter().find(|pair| pair.1 == words[at]).expect("a statement word").0;
        let number = words.get(at + 1).and_then(|word| word.parse::<u16>().ok());
        at += 1 + number.is_some() as usize;
        tokens.push((form, if form.has_operand() { number.expect("an operand") } else { 0 }));
    }
    tokens
}

/// The set bits as a list of numbers.
pub fn write_set(set: u128) -> String {
    let numbers: Vec<String> = (0..128).filter(|n| set >> n & 1 == 1).map(|n: u32| n.to_string()).collect();
    format!("({})", numbers.join(" "))
}

/// The numbers in a list as a set.
pub fn read_set(text: &str) -> u128 {
    let digits = text.replace(&['(', ')'][..], " ");
    digits.split_whitespace().filter_map(|word| word.parse::<u32>().ok()).fold(0, |all, n| all | 1 << n)
}
