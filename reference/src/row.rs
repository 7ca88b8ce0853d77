//! A row of text: a block, a state, the given inputs, and what one instant comes to.

use crate::block::{decode, encode_tokens, Block, Form, Header, Token};
use crate::fault::Fault;
use crate::reaction::{active_of, Phase, Reaction};
use crate::rules::Rules;
use crate::text::{read_set, read_statement, write_set, write_statement};
use crate::values::signal_bit;

#[derive(Clone, Debug)]
pub struct Row {
    pub inputs: u16,
    pub outputs: u16,
    pub tokens: Vec<Token>,
    pub phase: Phase,
    pub given: u64,
}

/// The header that fits these statements.
pub fn header_of(inputs: u16, outputs: u16, tokens: &[Token]) -> Header {
    let locals = tokens.iter().filter(|token| token.0 == Form::Local).count() as u16;
    Header { version: 1, inputs, outputs, locals }
}

impl Row {
    /// The block, if it is a good one.
    pub fn block(&self) -> Option<Block> {
        let bytes = encode_tokens(header_of(self.inputs, self.outputs, &self.tokens), &self.tokens);
        decode(&bytes, Fault::None).ok()
    }

    /// What the instant comes to, as words.
    pub fn expected(&self, fault: Fault) -> String {
        let block = self.block().expect("a row holds a good block");
        words(&block, &Rules { fault }.react(&block, self.phase, self.given))
    }

    /// INPUTS | OUTPUTS | STATEMENT | STATE | GIVEN | EXPECTED
    pub fn text(&self) -> String {
        let statement = write_statement(&self.tokens);
        let given = write_set(self.given as u128);
        let expected = self.expected(Fault::None);
        format!("{} | {} | {statement} | {} | {given} | {expected}", self.inputs, self.outputs, state_word(self.phase))
    }

    /// Reads a row and, apart from it, its last column.
    pub fn read(text: &str) -> (Row, String) {
        let columns: Vec<&str> = text.split('|').map(|column| column.trim()).collect();
        let phase = match columns[3] {
            "fresh" => Phase::Fresh,
            "finished" => Phase::Finished,
            running => Phase::Running(read_set(running)),
        };
        let row = Row {
            inputs: columns[0].parse().expect("a count of inputs"),
            outputs: columns[1].parse().expect("a count of outputs"),
            tokens: read_statement(columns[2]),
            phase,
            given: read_set(columns[4]) as u64,
        };
        (row, columns[5].to_string())
    }
}

fn state_word(phase: Phase) -> String {
    match phase {
        Phase::Fresh => "fresh".to_string(),
        Phase::Finished => "finished".to_string(),
        Phase::Running(active) => write_set(active).replacen('(', "(running ", 1),
    }
}

/// `13 statuses undecided rounds` or `0 statuses code rounds phase (kept pauses)`; no output at all is `-`.
pub fn words(block: &Block, reaction: &Reaction) -> String {
    let statuses = statuses(block, reaction);
    match reaction.code {
        None => format!("13 {statuses} {} {}", reaction.undecided, reaction.rounds),
        Some(code) => {
            let phase = match reaction.next {
                Phase::Fresh => "fresh",
                Phase::Running(_) => "running",
                Phase::Finished => "finished",
            };
            let kept = write_set(active_of(reaction.next));
            format!("0 {statuses} {code} {} {phase} {kept}", reaction.rounds)
        }
    }
}

/// P, A or U for each output in signal order.
fn statuses(block: &Block, reaction: &Reaction) -> String {
    let (inputs, outputs) = (block.header.inputs, block.header.outputs);
    if outputs == 0 {
        return "-".to_string();
    }
    let letter = |signal: u16| match signal_bit(signal) {
        bit if reaction.present & bit != 0 => 'P',
        bit if reaction.absent & bit != 0 => 'A',
        _ => 'U',
    };
    (inputs..inputs + outputs).map(letter).collect()
}

/// Whether what came out is what a column says; `?` stands for a word left open, `...` for all the rest.
pub fn agrees(column: &str, out: &str) -> bool {
    let mut words = out.split_whitespace();
    for wanted in column.split_whitespace() {
        if wanted == "..." {
            return true;
        }
        match words.next() {
            Some(word) if wanted == "?" || wanted == word => {}
            _ => return false,
        }
    }
    words.next().is_none()
}
