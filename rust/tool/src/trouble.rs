//! What ends a command early: a status, what is wrong, and what to do about it, a line each.

use crate::status::Status;
use std::fmt::Display;
use std::io;

#[derive(Debug)]
pub struct Trouble {
    pub status: Status,
    pub lines: Vec<String>,
}

pub type Outcome<T> = Result<T, Trouble>;

impl Trouble {
    pub fn new(status: Status, wrong: impl Into<String>) -> Trouble {
        Trouble { status, lines: vec![wrong.into()] }
    }

    /// A wrong call.
    pub fn call(wrong: impl Into<String>) -> Trouble {
        Trouble::new(Status::WrongCall, wrong)
    }

    /// A file, or a stream, that could not be read or written.
    pub fn file(name: impl Display, why: &io::Error) -> Trouble {
        Trouble::new(Status::File, format!("{}: {}", name, reason(why)))
    }

    /// A line more: what to do, or how to say it rightly.
    pub fn advise(mut self, line: impl Into<String>) -> Trouble {
        self.lines.push(line.into());
        self
    }
}

/// The system's reason without its number.
pub fn reason(why: &io::Error) -> String {
    let text = why.to_string();
    match text.find(" (os error") {
        Some(at) => text[..at].to_string(),
        None => text,
    }
}
