//! How many blocks are checked and how many instants are run in a second, on one core and on two.

use crate::library;
use crate::plain::Answer;
use crate::race::{measure, Call};
use crate::shapes::{self, Shape};
use std::thread;
use std::time::Duration;

/// The best of so many tries, each about so long, since whatever else the machine does only takes away.
const TRIES: usize = 5;
const ABOUT: Duration = Duration::from_millis(400);

/// A check in the place of an instant.
fn checked(block: &[u8], _: &mut [u8], _: u64) -> Answer {
    match foldheron::check(block) {
        Ok(summary) => Answer { active: u32::from(summary.pauses), ..Answer::default() },
        Err(refusal) => Answer { number: refusal.number, place: refusal.place, ..Answer::default() },
    }
}

/// Calls a second, of so many threads together.
fn rate(call: Call, shape: &Shape, cores: usize) -> f64 {
    let once = || -> f64 {
        thread::scope(|scope| {
            let running: Vec<_> = (0..cores).map(|_| scope.spawn(move || 1e9 / measure(call, shape, ABOUT))).collect();
            running.into_iter().map(|thread| thread.join().expect("a thread that measures ends")).sum()
        })
    };
    (0..TRIES).map(|_| once()).fold(0.0, f64::max)
}

fn row(cells: [String; 6]) {
    let [name, statements, one, two, first, second] = cells;
    println!("{:<28} {:>10} {:>12} {:>12} {:>12} {:>12}", name, statements, one, two, first, second);
}

pub fn print() {
    println!("a second: blocks checked, and instants of which each reads and checks its block and runs it; the best of {} tries", TRIES);
    row(["blocks", "statements", "checks, 1", "2 cores", "instants, 1", "2 cores"].map(String::from));
    for (size, shape) in [("small", shapes::small(10)), ("middle", shapes::small(50)), ("large", shapes::mixed(500, 3))] {
        let told = |call, cores| format!("{:.0}", rate(call, &shape, cores));
        let name = format!("{}: {}", size, shape.name);
        let statements = shape.statements.to_string();
        row([name, statements, told(checked, 1), told(checked, 2), told(library::instant, 1), told(library::instant, 2)]);
    }
}
