//! A line on standard error for a run that takes longer than a second, where a terminal shows it and the run itself is printed elsewhere or
//! not at all.

use crate::output::put_error;
use crate::system;
use crate::walk::grouped;
use std::time::{Duration, Instant};

/// The clock is looked at once in so many instants.
const EVERY: u64 = 256;
const SECOND: Duration = Duration::from_secs(1);

pub struct Progress {
    is_on: bool,
    is_shown: bool,
    total: Option<u64>,
    last: Instant,
}

impl Progress {
    pub fn new(total: Option<u64>, is_silent: bool) -> Progress {
        let is_on = system::error_is_terminal() && (is_silent || !system::output_is_terminal());
        Progress { is_on, is_shown: false, total, last: Instant::now() }
    }

    pub fn at(&mut self, instants: u64) {
        if !self.is_on || instants % EVERY != 0 || self.last.elapsed() < SECOND {
            return;
        }
        self.last = Instant::now();
        self.is_shown = true;
        let of = self.total.map_or(String::new(), |total| format!(" of {}", grouped(total)));
        put_error(&format!("\rfoldheron: {}{} instants", grouped(instants), of));
    }

    /// Takes the line away.
    pub fn done(&mut self) {
        if self.is_shown {
            put_error("\r\x1b[K");
        }
        self.is_shown = false;
    }
}

/// A run that fails has its message on a line of its own.
impl Drop for Progress {
    fn drop(&mut self) {
        self.done();
    }
}
