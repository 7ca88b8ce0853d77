//! Standard output, kept in a buffer until it is full or somebody waits for it, and lines on standard error. Nothing here can panic.

use crate::system;
use crate::trouble::{Outcome, Trouble};
use std::fs::File;
use std::io::{ErrorKind, Write};
use std::mem::ManuallyDrop;

const FULL: usize = 1 << 15;

pub struct Out {
    /// None where what is printed is only kept.
    file: Option<ManuallyDrop<File>>,
    kept: Vec<u8>,
}

impl Out {
    pub fn new() -> Out {
        Out { file: Some(system::output()), kept: Vec::with_capacity(2 * FULL) }
    }

    /// What is printed here is kept, for a page that it becomes a part of.
    pub fn keeping() -> Out {
        Out { file: None, kept: Vec::new() }
    }

    /// What was kept.
    pub fn kept(&self) -> String {
        String::from_utf8_lossy(&self.kept).into_owned()
    }

    pub fn text(&mut self, text: &str) -> Outcome<()> {
        self.kept.extend_from_slice(text.as_bytes());
        if self.kept.len() < FULL {
            return Ok(());
        }
        self.flush()
    }

    /// A line, without spaces at its end.
    pub fn line(&mut self, line: &str) -> Outcome<()> {
        self.text(line.trim_end_matches(' '))?;
        self.text("\n")
    }

    /// Writes what is kept.
    pub fn flush(&mut self) -> Outcome<()> {
        let written = match &self.file {
            Some(file) => (&**file).write_all(&self.kept),
            None => return Ok(()),
        };
        self.kept.clear();
        written.map_err(|why| match why.kind() {
            ErrorKind::BrokenPipe => Trouble::file("standard output", &why).advise("who read it has closed it; nothing more is written"),
            _ => Trouble::file("standard output", &why).advise("what was printed is not whole"),
        })
    }
}

/// Lines on standard error, the first with the program's name. Where it cannot be written there is nobody to tell.
pub fn say(lines: &[String]) {
    let mut text = String::new();
    for (n, line) in lines.iter().enumerate() {
        let head = if n == 0 { "foldheron: " } else { "  " };
        text.push_str(head);
        text.push_str(line);
        text.push('\n');
    }
    put_error(&text);
}

pub fn warn(line: String, more: &str) {
    say(&[format!("warning: {}", line), more.to_string()]);
}

/// Text on standard error as it is.
pub fn put_error(text: &str) {
    let _ = std::io::stderr().write_all(text.as_bytes());
}
