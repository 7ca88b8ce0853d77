//! CLASH: two active pauses that are not compatible.

use super::table::{Table, ROWS};

/// The first such pair: the lowest first pause, then the lowest second.
pub fn first_clash(table: &Table, active: u128) -> Option<(u16, u16)> {
    if active.count_ones() < 2 {
        return None;
    }
    let before = pauses_before(table);
    let mut firsts = active;
    while let Some(m) = take_lowest(&mut firsts) {
        let mut seconds = firsts;
        while let Some(n) = take_lowest(&mut seconds) {
            if !is_compatible(table, &before, m, n) {
                return Some((m, n));
            }
        }
    }
    None
}

fn take_lowest(set: &mut u128) -> Option<u16> {
    if *set == 0 {
        return None;
    }
    let lowest = set.trailing_zeros() as u16;
    *set &= *set - 1;
    Some(lowest)
}

/// How many pauses stand before each statement.
fn pauses_before(table: &Table) -> [u16; ROWS] {
    let mut before = [0; ROWS];
    let mut count = 0;
    for (row, place) in table.rows[..table.statements].iter().zip(&mut before) {
        *place = count;
        count += u16::from(row.kind == 17);
    }
    before
}

/// The lowest statement above both is a parallel: a walk down from the root to where the two part.
fn is_compatible(table: &Table, before: &[u16; ROWS], m: u16, n: u16) -> bool {
    let mut at = 0;
    loop {
        let kind = table.rows[at].kind;
        if !matches!(kind, 19 | 21 | 23) {
            at += 1;
            continue;
        }
        let second = table.second(at);
        if n < before[second] {
            at += 1;
        } else if m < before[second] {
            return kind == 23;
        } else {
            at = second;
        }
    }
}
