//! Families of calls: those of the statement, and those that a later request added. Each has cases, sorts and faults of its own.

use crate::cases::{Call, Case};
use crate::fault::{Fault, ALIKE, CHECKS, CONVERTS, COPIES, HEARD, LENT, MAZES, RULES, SHELVES, TEXTS, WHY, WRITTEN};

#[derive(Clone, Copy, PartialEq, Eq, Debug)]
pub enum Family {
    /// The calls that take one input set.
    Base,
    /// The calls that take inputs present and inputs absent.
    Heard,
    /// The call that says why.
    Why,
    /// The calls on a shelf.
    Shelf,
    /// The maze of the first instant.
    Maze,
    /// Two blocks compared.
    Alike,
    /// Loop bodies doubled.
    Copies,
    /// Blocks written as text.
    Written,
    /// Blocks read from text.
    Text,
    /// Edition 2 converted.
    Convert,
}

pub const FAMILIES: [Family; 10] = [
    Family::Base, Family::Heard, Family::Why, Family::Shelf, Family::Maze, Family::Alike, Family::Copies, Family::Written, Family::Text,
    Family::Convert,
];

impl Family {
    /// The family that a word names.
    pub fn named(word: &str) -> Option<Family> {
        FAMILIES.iter().copied().find(|family| family.word() == word)
    }

    fn word(self) -> &'static str {
        match self {
            Family::Base => "base",
            Family::Heard => "heard",
            Family::Why => "why",
            Family::Shelf => "shelf",
            Family::Maze => "maze",
            Family::Alike => "alike",
            Family::Copies => "copies",
            Family::Written => "written",
            Family::Text => "text",
            Family::Convert => "convert",
        }
    }

    pub fn calls(self) -> &'static [&'static str] {
        match self {
            Family::Base => &["check", "fresh", "instant", "logged", "excerpt"],
            Family::Heard => &["heard", "heardlogged"],
            Family::Why => &["reason"],
            Family::Shelf => &["install", "fetch", "withdraw"],
            Family::Maze => &["maze"],
            Family::Alike => &["alike"],
            Family::Copies => &["copies"],
            Family::Written => &["writetext"],
            Family::Text => &["readtext"],
            Family::Convert => &["convert"],
        }
    }

    /// How many cases there are where no number is named.
    pub fn count(self) -> usize {
        match self {
            Family::Base => 20_000,
            Family::Heard => 8000,
            Family::Why => 8000,
            Family::Shelf => 1600,
            Family::Maze => 4000,
            Family::Alike | Family::Copies | Family::Written | Family::Convert => 2000,
            Family::Text => 6000,
        }
    }

    /// The faults that its cases have to tell.
    pub fn faults(self) -> Vec<Fault> {
        match self {
            Family::Base => [RULES, CHECKS, LENT].concat(),
            Family::Heard => HEARD.to_vec(),
            Family::Why => WHY.to_vec(),
            Family::Shelf => SHELVES.to_vec(),
            Family::Maze => MAZES.to_vec(),
            Family::Alike => ALIKE.to_vec(),
            Family::Copies => COPIES.to_vec(),
            Family::Written => WRITTEN.to_vec(),
            Family::Text => TEXTS.to_vec(),
            Family::Convert => CONVERTS.to_vec(),
        }
    }

    fn of(case: &Case) -> Family {
        match case.call {
            Call::Heard { .. } | Call::HeardLogged { .. } => Family::Heard,
            Call::Reason { .. } => Family::Why,
            Call::Install { .. } | Call::Fetch { .. } | Call::Withdraw { .. } => Family::Shelf,
            Call::Maze { .. } => Family::Maze,
            Call::Alike { .. } => Family::Alike,
            Call::Copies { .. } => Family::Copies,
            Call::Convert { .. } => Family::Convert,
            Call::WriteText { .. } => Family::Written,
            Call::ReadText { .. } => Family::Text,
            _ => Family::Base,
        }
    }
}

/// The families whose calls these are.
pub fn families(cases: &[Case]) -> Vec<Family> {
    FAMILIES.iter().copied().filter(|&family| cases.iter().any(|case| Family::of(case) == family)).collect()
}

/// Every fault that these cases have to tell; those of settling are no call's.
pub fn faults(cases: &[Case]) -> Vec<Fault> {
    families(cases).into_iter().flat_map(Family::faults).collect()
}
