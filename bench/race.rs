//! Runs of one side over a shape, and the two sides timed in turn.

use crate::clock::spent;
use crate::plain::Answer;
use crate::shapes::Shape;
use crate::{library, plain};
use foldheron::STATE;
use std::time::{Duration, Instant};

/// One instant of either side.
pub type Call = fn(&[u8], &mut [u8], u64) -> Answer;

/// How often each side is timed, and about how long each time.
#[derive(Clone, Copy)]
pub struct Pace {
    pub times: u32,
    pub about: Duration,
}

/// A block's fresh state.
fn fresh(block: &[u8]) -> [u8; STATE] {
    let mut state = [0; STATE];
    foldheron::fresh(block, &mut state).expect("a shape has good blocks");
    state
}

/// The answers of one run of each block from fresh over the shape's inputs, and the state after each.
pub fn answers(call: Call, shape: &Shape) -> Vec<(Answer, [u8; STATE])> {
    let of_block = |block: &Vec<u8>| {
        let mut state = fresh(block);
        shape.inputs.iter().map(|&inputs| (call(block, &mut state, inputs), state)).collect::<Vec<_>>()
    };
    shape.blocks.iter().flat_map(of_block).collect()
}

/// The value is needed, as far as the compiler can see: a call whose answer nobody reads could be left out.
fn needed(answer: Answer) {
    unsafe { std::ptr::read_volatile(&answer) };
}

/// Nanoseconds an instant, from whole runs from fresh for about so long.
pub fn measure(call: Call, shape: &Shape, about: Duration) -> f64 {
    let begun = Instant::now();
    timed(call, shape, about, || begun.elapsed().as_nanos() as f64)
}

/// The same by a clock that begins at 0.
fn timed(call: Call, shape: &Shape, about: Duration, clock: impl Fn() -> f64) -> f64 {
    let begins: Vec<_> = shape.blocks.iter().map(|block| (block, fresh(block))).collect();
    let begun = clock();
    let mut instants = 0u32;
    while instants == 0 || clock() - begun < about.as_nanos() as f64 {
        for &(block, mut state) in &begins {
            for &inputs in &shape.inputs {
                needed(call(block, &mut state, inputs));
                instants += 1;
            }
        }
    }
    (clock() - begun) / f64::from(instants)
}

/// Nanoseconds an instant of the library and of the plain evaluator: the two in turn, many times for a short while each, and the least
/// of each, since whatever else the machine does only adds. Where one instant takes long, fewer times.
pub fn race(shape: &Shape, pace: Pace) -> (f64, f64) {
    let begun = Instant::now();
    let mut least = (f64::MAX, f64::MAX);
    for n in 0..pace.times {
        if n > 0 && begun.elapsed() > pace.about * 4 * pace.times {
            break;
        }
        least.0 = least.0.min(measure(library::instant, shape, pace.about));
        least.1 = least.1.min(measure(plain::instant, shape, pace.about));
    }
    least
}

/// Both sides' nanoseconds an instant by processor time, the least of so many times each.
pub fn by_processor(shape: &Shape, pace: Pace) -> (f64, f64) {
    let least = |call: Call| (0..pace.times).map(|_| timed(call, shape, pace.about, spent)).fold(f64::MAX, f64::min);
    (least(library::instant), least(plain::instant))
}

/// Nanoseconds of processor time of the longest of four instants from fresh with no input present, each the least of so many runs.
pub fn longest(call: Call, block: &[u8], runs: u32) -> f64 {
    let mut least = [f64::MAX; 4];
    for _ in 0..runs {
        let mut state = fresh(block);
        for time in &mut least {
            let begun = spent();
            needed(call(block, &mut state, 0));
            *time = time.min(spent() - begun);
        }
    }
    least.iter().copied().fold(0.0, f64::max)
}
