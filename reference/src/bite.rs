//! Shows for each fault a generated case that tells it from the true evaluator.

use crate::calls::told;
use crate::cases::Case;
use crate::family::faults;
use crate::fault::Fault;

/// Prints for each fault how many cases it took; false if one is never told apart by what a program prints.
pub fn print_bites(cases: &[Case], each: bool) -> bool {
    let truth: Vec<String> = cases.iter().map(|case| told(case, Fault::None)).collect();
    let (mut found, mut missed) = (0, 0);
    for fault in faults(cases) {
        let at = cases.iter().zip(&truth).position(|(case, truth)| told(case, fault) != *truth);
        match at {
            Some(n) => {
                found += 1;
                if each {
                    println!("{fault:?}: told by case {} ({})", n + 1, fault.says());
                }
            }
            None => {
                missed += 1;
                println!("{fault:?}: not told apart by {} cases ({})", cases.len(), fault.says());
            }
        }
    }
    println!("{found} faults told apart by {} cases, {missed} not", cases.len());
    missed == 0
}
