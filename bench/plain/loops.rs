//! The check of the loops.

use super::codes::{code_of, down, maxima, ONE, ZERO};
use super::table::{Table, ROWS};

/// The lowest loop whose body may complete with 0 when started, every signal unknown: one pass from the last row to the first.
pub fn lowest_endless(table: &Table) -> Option<usize> {
    let mut codes = [0u32; ROWS];
    let mut lowest = None;
    for at in (0..table.statements).rev() {
        let row = table.rows[at];
        codes[at] = match row.kind {
            16 | 18 => ZERO,
            17 => ONE,
            25 => code_of(row.operand),
            20 | 26 => codes[at + 1],
            24 => down(codes[at + 1]),
            19 => codes[at + 1] | codes[table.second(at)],
            23 => maxima(codes[at + 1], codes[table.second(at)]),
            21 if codes[at + 1] & ZERO != 0 => codes[at + 1] & !ZERO | codes[table.second(at)],
            21 => codes[at + 1],
            _ => {
                if codes[at + 1] & ZERO != 0 {
                    lowest = Some(at);
                }
                codes[at + 1] & !ZERO
            }
        };
    }
    lowest
}
