//! Which input that is not heard, or which two, would settle an instant that was refused with 13. That is found by trying: every status of each, on
//! a copy of the state. A block has at most 64 inputs, so that is some 8,300 instants at most.

use crate::block::Block;
use crate::labels::{members, Labels};
use crate::sets::{listed, Given};
use foldheron::{instant_heard, Instant};

/// The inputs by number.
pub enum Waits {
    /// With each of these, heard as present or as absent, the instant is answered.
    One(Vec<usize>),
    /// No one does so; these pairs do.
    Two(Vec<(usize, usize)>),
    /// Nor does a pair: these do if they are present, and these if they are absent.
    Perhaps(Vec<usize>, Vec<usize>),
    NotFound,
}

/// Tries each input of a 13, then each pair.
pub fn found(block: &Block, state: &[u8], given: Given) -> Waits {
    let unheard: Vec<usize> = members(given.unheard).collect();
    let one: Vec<usize> = unheard.iter().copied().filter(|n| settles(block, state, given, 1 << n)).collect();
    if !one.is_empty() {
        return Waits::One(one);
    }
    let pairs = unheard.iter().enumerate().flat_map(|(at, first)| unheard[at + 1..].iter().map(move |second| (*first, *second)));
    let two: Vec<(usize, usize)> = pairs.filter(|(first, second)| settles(block, state, given, 1 << first | 1 << second)).collect();
    if !two.is_empty() {
        return Waits::Two(two);
    }
    let perhaps = |is_present: bool| unheard.iter().copied().filter(|n| is_answered(block, state, given, 1 << n, u64::from(is_present) << n)).collect();
    match (perhaps(true), perhaps(false)) {
        (with, without) if (&with, &without) != (&vec![], &vec![]) => Waits::Perhaps(with, without),
        _ => Waits::NotFound,
    }
}

/// Whether the instant is answered whatever the statuses of these inputs are, once they are heard.
fn settles(block: &Block, state: &[u8], given: Given, heard: u64) -> bool {
    let mut present = heard;
    loop {
        if !is_answered(block, state, given, heard, present) {
            return false;
        }
        if present == 0 {
            return true;
        }
        present = (present - 1) & heard;
    }
}

/// Whether the instant is answered where these inputs are heard too, and those of them present that are in the second set.
fn is_answered(block: &Block, state: &[u8], given: Given, heard: u64, present: u64) -> bool {
    let tried = Given { present: given.present | present, unheard: given.unheard & !heard };
    let answer = instant_heard(&block.bytes, &mut state.to_vec(), tried.present, tried.absent(block.labels.all_inputs()));
    matches!(answer, Instant::Answered(_))
}

impl Waits {
    /// A line of the table.
    pub fn in_words(&self, labels: &Labels) -> String {
        let name = |n: &usize| labels.input(*n);
        let all = |inputs: &[usize]| listed(&inputs.iter().map(name).collect::<Vec<_>>());
        let told = match self {
            Waits::One(inputs) if inputs.len() == 1 => format!("it waits for {}: heard as present or as absent, that settles it", name(&inputs[0])),
            Waits::One(inputs) => format!("it waits for one of {}: heard as present or as absent, any one of them settles it", all(inputs)),
            Waits::Two(pairs) => {
                let more = if pairs.len() == 1 { String::new() } else { format!("; {} more of two do so too", pairs.len() - 1) };
                let (first, second) = pairs[0];
                format!("it waits for {} and {}: heard as present or as absent, the two settle it, and no one alone does{}", name(&first), name(&second), more)
            }
            Waits::Perhaps(with, without) => {
                let told = |status: &str, inputs: &[usize]| match inputs {
                    [] => String::new(),
                    [one] => format!("; heard as {}, {} does", status, name(one)),
                    more => format!("; heard as {}, any one of {} does", status, all(more)),
                };
                format!("no one input and no two settle it in every case{}{}", told("present", with), told("absent", without))
            }
            Waits::NotFound => "no one input and no two settle it in every case; some statuses, or more inputs, may".to_string(),
        };
        format!("found by trying: {}", told)
    }

    /// The names of each input, or of each two, that would settle it in every case.
    pub fn names(&self, labels: &Labels) -> Vec<Vec<String>> {
        match self {
            Waits::One(inputs) => inputs.iter().map(|n| vec![labels.input(*n)]).collect(),
            Waits::Two(pairs) => pairs.iter().map(|(first, second)| vec![labels.input(*first), labels.input(*second)]).collect(),
            Waits::Perhaps(_, _) | Waits::NotFound => Vec::new(),
        }
    }
}
