//! Times instants of the library and of the plain evaluator, in one run of one program, and prints the ratios.
//!   bench MACHINE                every shape
//!   bench smoke MACHINE          a few seconds in all, to see that it runs and that both give the same answers
//!   bench plot FILE MACHINE      time against statements and against nested locals, as a picture
//!   bench slowest FILE MACHINE   two minutes of search for the slowest block, whose bytes are written
//!   bench rates MACHINE          checks and instants a second on one core and on two
//!   bench texts MACHINE          texts read and written
//! Ends with 1 where the two give different answers, or a picture could not be written.

mod climb;
mod clock;
mod library;
mod plain;
mod plot;
mod race;
mod rates;
mod shapes;
mod small;
mod texts;
mod tree;

use plot::{Panel, Point};
use race::{answers, by_processor, measure, race, Pace};
use shapes::Shape;
use std::time::Duration;

fn told(ns: f64) -> String {
    match ns {
        _ if ns < 1e4 => format!("{:.0} ns", ns),
        _ if ns < 1e7 => format!("{:.1} us", ns / 1e3),
        _ => format!("{:.1} ms", ns / 1e6),
    }
}

fn row(name: &str, cells: [String; 6]) {
    let [statements, rounds, library, plain, ratio, each] = cells;
    println!("{:<40} {:>10} {:>6} {:>10} {:>10} {:>8} {:>8}", name, statements, rounds, library, plain, ratio, each);
}

fn heading() {
    row("shape", ["statements", "rounds", "library", "plain", "ratio", "ns each"].map(String::from));
}

/// One row: the shape's statements and the mean rounds of its instants, the two times, how often the library's goes into the other, and
/// the library's nanoseconds for each statement in each round. The two times, where both sides give the same answers.
fn line(shape: &Shape, timed: impl Fn(&Shape) -> (f64, f64)) -> Option<(f64, f64)> {
    let (ours, theirs) = (answers(library::instant, shape), answers(plain::instant, shape));
    if ours != theirs {
        println!("{}: the answers differ: {:?} and {:?}", shape.name, ours, theirs);
        return None;
    }
    let rounds = ours.iter().map(|(answer, _)| f64::from(answer.rounds)).sum::<f64>() / ours.len() as f64;
    let (library, plain) = timed(shape);
    let each = library / shape.statements as f64 / rounds.max(1.0);
    let (statements, rounds) = (shape.statements.to_string(), format!("{:.2}", rounds));
    let (ratio, each) = (format!("{:.2}", plain / library), format!("{:.1}", each));
    row(&shape.name, [statements, rounds, told(library), told(plain), ratio, each]);
    Some((library, plain))
}

/// The slowest block, which the plain evaluator would not get to the end of: the library alone.
fn slowest(pace: Pace) {
    let shape = shapes::slowest();
    let (answer, _) = answers(library::instant, &shape)[1];
    let library = measure(library::instant, &shape, pace.about);
    let each = library / shape.statements as f64 / f64::from(answer.rounds);
    let (statements, rounds, each) = (shape.statements.to_string(), format!("{:.2}", f64::from(answer.rounds)), format!("{:.1}", each));
    row(&shape.name, [statements, rounds, told(library), "-".to_string(), "-".to_string(), each]);
}

/// Every shape; true where both sides give the same answers on all.
fn every_shape(smoke: bool) -> bool {
    let (times, worst) = if smoke { (1, 2) } else { (60, 4) };
    let pace = Pace { times, about: Duration::from_millis(20) };
    println!("an instant reads and checks the block and runs it; a time is the least of {}, each over 20 ms or more", times);
    heading();
    slowest(pace);
    shapes::all(worst).iter().filter(|shape| line(shape, |shape| race(shape, pace)).is_none()).count() == 0
}

/// The picture, where both sides give the same answers and it could be written.
fn plotted(into: &str, machine: &str) -> bool {
    let pace = Pace { times: 100, about: Duration::from_millis(2) };
    println!("by processor time, the least of {}, each over 2 ms or more", pace.times);
    heading();
    let point = |along: u16, shape: Shape| {
        let (library, plain) = line(&shape, |shape| by_processor(shape, pace))?;
        Some(Point { along: f64::from(along), library, plain })
    };
    let by_statements: Option<Vec<Point>> = (1..=10).map(|n| point(50 * n, shapes::mixed(50 * usize::from(n), 2))).collect();
    let by_locals: Option<Vec<Point>> = (0..=6).map(|locals| point(locals, shapes::mixed(500, locals))).collect();
    let (Some(by_statements), Some(by_locals)) = (by_statements, by_locals) else { return false };
    let panels = [
        Panel { title: "2 nested locals".to_string(), along: "statements", by_powers: false, points: by_statements },
        Panel { title: "500 statements".to_string(), along: "nested locals", by_powers: true, points: by_locals },
    ];
    let written = std::fs::write(into, plot::picture(machine, &panels));
    match &written {
        Ok(()) => println!("the picture is in {}", into),
        Err(why) => println!("the picture could not be written to {}: {}", into, why),
    }
    written.is_ok()
}

fn main() {
    let words: Vec<String> = std::env::args().skip(1).collect();
    let words: Vec<&str> = words.iter().map(String::as_str).collect();
    let machine = |rest: &[&str]| {
        let said = if rest.is_empty() { "not said".to_string() } else { rest.join(" ") };
        println!("machine: {}", said);
        said
    };
    let well = match words[..] {
        ["plot", into, ref rest @ ..] => plotted(into, &machine(rest)),
        ["slowest", into, ref rest @ ..] => {
            machine(rest);
            climb::print(into);
            true
        }
        ["rates", ref rest @ ..] => {
            machine(rest);
            rates::print();
            true
        }
        ["texts", ref rest @ ..] => {
            machine(rest);
            texts::print();
            true
        }
        ["smoke", ref rest @ ..] => {
            machine(rest);
            every_shape(true)
        }
        ref rest => {
            machine(rest);
            every_shape(false)
        }
    };
    std::process::exit(i32::from(!well));
}
