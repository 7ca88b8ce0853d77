//! A few cases out of many that still have every sort and tell every fault, to be committed.

use crate::calls::{bytes, told};
use crate::cases::{edge_cases, Case};
use crate::counts::{all_sorts, sorts};
use crate::family::{families, faults};
use crate::fault::Fault;

/// As they come after the edges; the smallest of each sort.
const PLAIN: usize = 200;
const EACH: usize = 3;

/// With more bytes on its shelf a case is chosen only where a sort has no other, or a fault is told by no other.
const LARGE: usize = 4096;

/// All edges, some as they come, the smallest of each sort, and for each fault the smallest that tells it.
pub fn few(cases: &[Case]) -> Vec<Case> {
    let families = families(cases);
    let plain = families.iter().map(|&family| edge_cases(family).len()).sum::<usize>() + PLAIN;
    let large = |n: usize| cases[n].shelf().len() > LARGE;
    let mut chosen: Vec<bool> = (0..cases.len()).map(|n| n < plain && !large(n)).collect();
    let mut order: Vec<usize> = (0..cases.len()).collect();
    order.sort_by_key(|&n| bytes(&cases[n]).len());
    let kinds: Vec<Vec<String>> = cases.iter().map(sorts).collect();
    for sort in all_sorts(&families) {
        let smallest: Vec<usize> = order.iter().copied().filter(|&n| kinds[n].contains(&sort)).collect();
        if !smallest.iter().any(|&n| chosen[n] && large(n)) {
            let first = smallest.iter().take(EACH).enumerate();
            first.filter(|&(at, &n)| at == 0 || !large(n)).for_each(|(_, &n)| chosen[n] = true);
        }
    }
    let truth: Vec<String> = cases.iter().map(|case| told(case, Fault::None)).collect();
    for fault in faults(cases) {
        let tells = |n: usize| told(&cases[n], fault) != truth[n];
        if !(0..cases.len()).any(|n| chosen[n] && tells(n)) {
            order.iter().find(|&&n| tells(n)).into_iter().for_each(|&n| chosen[n] = true);
        }
    }
    cases.iter().zip(chosen).filter(|pair| pair.1).map(|pair| pair.0.clone()).collect()
}
