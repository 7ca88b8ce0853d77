//! A value change dump, as IEEE 1364 has it, for programs that show waves. A unit of time is an instant: instant n lasts from n to n + 1. What is not known, an
//! input that is not heard and every output of a refused instant, is x.

use super::style::{short, Step, Style, Tally};
use super::words::why;
use crate::block::{Block, Report};
use crate::output::{say, Out};
use crate::trouble::Outcome;
use foldheron::Instant;

pub struct Vcd<'a> {
    block: &'a Block,
    /// The value of each variable as it was written last; none before the first instant.
    values: Option<Vec<Value>>,
}

/// The value of a variable: a bit, or a number of 16 bits; none where it is not known.
type Value = Option<u16>;

/// The variables behind the signals.
const NUMBERS: [&str; 4] = ["refusal", "code", "active", "rounds"];
const BITS: usize = 16;

impl<'a> Vcd<'a> {
    pub fn new(block: &'a Block) -> Vcd<'a> {
        Vcd { block, values: None }
    }

    /// The outputs' end: up to there a variable is one bit.
    fn bits(&self) -> usize {
        self.block.labels.outputs().end
    }

    /// The values of the signals and then of the numbers.
    fn of(&self, step: &Step) -> Vec<Value> {
        let labels = &self.block.labels;
        let bit = |set: u64, n: usize| Some((set >> n & 1) as u16);
        let inputs = labels.inputs().map(|n| if step.inputs.unheard >> n & 1 == 1 { None } else { bit(step.inputs.present, n) });
        let reaction = match &step.answer {
            Instant::Answered(reaction) => Some(reaction),
            _ => None,
        };
        let rounds = match &step.answer {
            Instant::NotConstructive(doubt) => Some(doubt.rounds),
            _ => reaction.map(|r| r.rounds),
        };
        let outputs = labels.outputs().map(|n| reaction.and_then(|r| bit(r.present, n)));
        let numbers = [Some(step.answer.number()), reaction.map(|r| r.code), reaction.map(|r| r.active), rounds];
        inputs.chain(outputs).chain(numbers).collect()
    }

    fn value(&self, n: usize, value: Value) -> String {
        match value {
            None if n < self.bits() => format!("x{}", id(n)),
            Some(bit) if n < self.bits() => format!("{}{}", bit, id(n)),
            None => format!("bx {}", id(n)),
            Some(number) => format!("b{:b} {}", number, id(n)),
        }
    }

    fn scope(&self, name: &str, variables: impl Iterator<Item = (usize, String)>, size: usize, out: &mut Out) -> Outcome<()> {
        out.line(&format!("$scope module {} $end", name))?;
        for (n, name) in variables {
            out.line(&format!("$var wire {} {} {} $end", size, id(n), name))?;
        }
        out.line("$upscope $end")
    }
}

/// The short name of a variable: one or two of the characters that may stand there.
fn id(n: usize) -> String {
    const FIRST: usize = 33;
    const COUNT: usize = 94;
    let letter = |k: usize| char::from((FIRST + k) as u8);
    match n {
        0..=93 => letter(n).to_string(),
        _ => format!("{}{}", letter(n / COUNT - 1), letter(n % COUNT)),
    }
}

/// A name without what parts the words of the file.
fn word(text: &str) -> String {
    text.chars().map(|c| if c.is_ascii_alphanumeric() { c } else { '_' }).collect()
}

impl Style for Vcd<'_> {
    fn begin(&mut self, out: &mut Out) -> Outcome<()> {
        let labels = &self.block.labels;
        out.line(&format!("$version foldheron {} $end", foldheron::VERSION))?;
        out.line("$comment a unit of time is an instant: instant n lasts from n to n + 1 $end")?;
        out.line("$timescale 1 ns $end")?;
        out.line(&format!("$scope module {} $end", word(&self.block.title())))?;
        self.scope("inputs", labels.inputs().map(|n| (n, labels.signal(n))), 1, out)?;
        self.scope("outputs", labels.outputs().map(|n| (n, labels.signal(n))), 1, out)?;
        self.scope("instant", NUMBERS.iter().enumerate().map(|(k, name)| (self.bits() + k, name.to_string())), BITS, out)?;
        out.line("$upscope $end")?;
        out.line("$enddefinitions $end")
    }

    fn step(&mut self, step: &Step, out: &mut Out) -> Outcome<()> {
        let values = self.of(step);
        let before = self.values.take();
        out.line(&format!("#{}", step.number))?;
        // The inputs that the block does not have are no variables.
        if step.answer.number() == 11 {
            out.line(&format!("$comment {} $end", why(&self.block.labels, step.inputs, &step.answer)))?;
        }
        if before.is_none() {
            out.line("$dumpvars")?;
        }
        for (n, value) in values.iter().enumerate() {
            if before.as_ref().map_or(true, |before| before[n] != *value) {
                out.line(&self.value(n, *value))?;
            }
        }
        if before.is_none() {
            out.line("$end")?;
        }
        self.values = Some(values);
        Ok(())
    }

    /// The last instant lasts as long as the others.
    fn end(&mut self, tally: &Tally, out: &mut Out) -> Outcome<()> {
        if tally.short > 0 {
            say(&[short(tally.short)]);
        }
        out.line(&format!("#{}", tally.instants + 1))
    }

    fn refused(&mut self, _report: &Report, _out: &mut Out) -> Outcome<()> {
        Ok(())
    }
}

#[cfg(test)]
mod tests {
    use super::*;

    #[test]
    fn short_names() {
        assert_eq!([id(0), id(93), id(94), id(95), id(187)], ["!", "~", "!!", "!\"", "!~"]);
        let all: std::collections::HashSet<String> = (0..70).map(id).collect();
        assert_eq!(all.len(), 70);
        assert_eq!(word("duty-standby 2"), "duty_standby_2");
    }
}
