//! Calls on a shelf: random ones, and every refusal at its boundary.

use crate::cases::{Call, Case};
use crate::chance::Chance;
use crate::edge_calls::{bad_blocks, EdgeCall};
use crate::edges::set;
use crate::shelf::{Sizes, TRUE};
use crate::shelf_model::{Model, Use};
use crate::shelves::{damaged, sized_block, some_use};

/// A call with the shelf that is lent to it.
fn case(shelf: Vec<u8>, used: Use) -> Case {
    match used {
        Use::Install { party, name, block } => Case { block, call: Call::Install { shelf, party, name } },
        Use::Fetch { party, name } => Case { block: Vec::new(), call: Call::Fetch { shelf, party, name } },
        Use::Withdraw { party, name } => Case { block: Vec::new(), call: Call::Withdraw { shelf, party, name } },
    }
}

/// A random call after a random history of a few calls, now and then on a damaged shelf.
pub fn some_shelf_case(chance: &mut Chance) -> Case {
    let mut model = Model::default();
    // Long histories of large blocks are few, since each case has all the bytes of its shelf.
    let (calls, large) = if chance.percent(2) { (60, true) } else { (1 + chance.below(10), false) };
    for _ in 0..calls {
        let used = if large { some_use(&model, chance) } else { some_small_use(&model, chance) };
        model.call(&used, TRUE);
    }
    let shelf = if chance.percent(20) { damaged(&model, chance) } else { model.bytes(TRUE) };
    let used = if large || chance.percent(3) { some_use(&model, chance) } else { some_small_use(&model, chance) };
    case(shelf, used)
}

/// The same with small blocks and few names, so that names meet.
fn some_small_use(model: &Model, chance: &mut Chance) -> Use {
    let small = |name: u16| name % 4 + if name > 255 { 256 } else { 0 };
    match some_use(model, chance) {
        Use::Install { party, name, block } if block.len() > 60 => {
            let block = sized_block(18 + 2 * chance.below(20), chance.number() as u16);
            Use::Install { party, name: small(name), block }
        }
        Use::Install { party, name, block } => Use::Install { party, name: small(name), block },
        other => other,
    }
}

fn install(party: u16, name: u16, block: &[u8]) -> Use {
    Use::Install { party, name, block: block.to_vec() }
}

fn fetch(party: u16, name: u16) -> Use {
    Use::Fetch { party, name }
}

fn withdraw(party: u16, name: u16) -> Use {
    Use::Withdraw { party, name }
}

/// Every call on one shelf with these arguments, all told the same.
fn all_told(edges: &mut Vec<EdgeCall>, shelf: &[u8], party: u16, wanted: &'static str) {
    let block = sized_block(18, 9);
    for used in [install(party, 9, &block), fetch(party, 7), withdraw(party, 7)] {
        edges.push((case(shelf.to_vec(), used), wanted));
    }
}

/// The shelf of these entries.
fn shelf_of(entries: &[(u16, u16, &[u8])]) -> Vec<u8> {
    let entries = entries.iter().map(|entry| (entry.0, entry.1, entry.2.to_vec())).collect();
    Model { entries }.bytes(TRUE)
}

/// A party's entries of so many bytes in all: as many of the largest as leave room for one more.
fn filled(party: u16, bytes: usize) -> Vec<(u16, u16, Vec<u8>)> {
    let mut entries = Vec::new();
    let mut left = bytes;
    while left > 0 {
        let size = if left >= 3094 + 26 { 3094 } else { left };
        let size = if size > 3094 { size - 26 } else { size };
        entries.push((party, 100 + entries.len() as u16, sized_block(size - 8, 1)));
        left -= size;
    }
    entries
}

/// The calls of a shelf at their boundaries.
pub fn shelf_edges() -> Vec<EdgeCall> {
    let shelf = shelf_of(&[(0, 7, &sized_block(18, 1)), (1, 7, &sized_block(20, 2)), (0, 8, &sized_block(26, 3))]);
    let mut edges = named_edges();
    for party in [2, 3, 256, 65535] {
        all_told(&mut edges, &shelf, party, "12 0");
    }
    all_told(&mut edges, &shelf[1..], 2, "12 0");
    for (block, wanted) in bad_blocks() {
        edges.push((case(shelf.clone(), install(0, 9, &block)), wanted));
        edges.push((case(shelf.clone(), install(0, 7, &block)), wanted));
        edges.push((case(shelf[1..].to_vec(), install(0, 7, &block)), "13 0"));
        edges.push((case(shelf.clone(), install(2, 7, &block)), "12 0"));
    }
    for bytes in bad_shelves(&shelf) {
        all_told(&mut edges, &bytes, 0, "13 0");
        all_told(&mut edges, &bytes, 1, "13 0");
    }
    edges.extend(quotas());
    edges
}

/// Names that are there and names that are not, at one's own and at the other party.
fn named_edges() -> Vec<EdgeCall> {
    let (one, other, third) = (sized_block(18, 1), sized_block(20, 2), sized_block(26, 3));
    let shelf = shelf_of(&[(0, 7, &one), (1, 7, &other), (0, 8, &third)]);
    let mut edges = Vec::new();
    for (used, wanted) in [
        (install(0, 7, &other), "14 0"),
        (install(1, 7, &other), "14 0"),
        (install(0, 8, &one), "14 0"),
        (install(1, 8, &one), "0 0"),
        (install(0, 263, &sized_block(3086, 4)), "0 0"),
        (install(1, 65535, &one), "0 0"),
        (fetch(0, 7), "0 0"),
        (fetch(1, 7), "0 0"),
        (fetch(0, 8), "0 0"),
        (fetch(1, 8), "16 0 -"),
        (fetch(0, 9), "16 0 -"),
        (fetch(0, 263), "16 0 -"),
        (withdraw(0, 7), "0 0"),
        (withdraw(1, 7), "0 0"),
        (withdraw(0, 8), "0 0"),
        (withdraw(1, 8), "16 0"),
        (withdraw(0, 9), "16 0"),
        (withdraw(1, 263), "16 0"),
    ] {
        edges.push((case(shelf.clone(), used), wanted));
    }
    let empty = shelf_of(&[]);
    edges.push((case(empty.clone(), install(0, 7, &one)), "0 0"));
    edges.push((case(empty.clone(), install(1, 0, &third)), "0 0"));
    edges.push((case(empty.clone(), fetch(0, 0)), "16 0 -"));
    edges.push((case(empty, withdraw(0, 0)), "16 0"));
    edges.push((case(shelf_of(&[(1, 3, &third)]), withdraw(1, 3)), "0 0"));
    edges
}

/// Shelves that are none, each by one thing.
fn bad_shelves(shelf: &[u8]) -> Vec<Vec<u8>> {
    let (one, bad) = (sized_block(18, 1), [0; 18]);
    let end = 26 + 28 + 34;
    let last = shelf.len() - 1;
    let mut bytes = vec![Vec::new(), shelf[..last].to_vec(), [shelf, &[0]].concat(), shelf[..end].to_vec()];
    // Length, kind and party of the second entry, and what comes after the last.
    for (at, word) in [
        (26, 27), (26, 29), (26, 8), (26, 7), (26, 1), (26, 65535), (26, 0), (28, 4), (28, 0), (28, 1285), (30, 2), (30, 256),
        (end, 1), (end, 8), (end + 2, 5), (end + 4, 1), (end + 6, 1), (last - 1, 1), (last - 1, 256),
    ] {
        bytes.push(set(shelf, at, word));
    }
    bytes.push(shelf_of(&[(0, 7, &one), (1, 7, &one), (0, 7, &one)]));
    bytes.push(shelf_of(&[(1, 7, &one), (1, 7, &one)]));
    bytes.push(shelf_of(&[(0, 7, &one), (1, 8, &bad)]));
    bytes.push(shelf_of(&[(0, 7, &one), (1, 8, &[])]));
    bytes
}

/// QUOTA to the last byte, after TAKEN; one party's is not the other's; a shelf that both have filled.
fn quotas() -> Vec<EdgeCall> {
    let one = sized_block(18, 9);
    let Sizes { party: most, .. } = TRUE;
    let shelf = |entries: Vec<(u16, u16, Vec<u8>)>| Model { entries }.bytes(TRUE);
    let (nearly, close, full) = (filled(0, most - 26), filled(0, most - 24), filled(0, most));
    let both = shelf([full.clone(), filled(1, most)].concat());
    let over = shelf([full.clone(), vec![(0, 7, one.clone())]].concat());
    vec![
        (case(shelf(nearly.clone()), install(0, 7, &one)), "0 0"),
        (case(shelf(nearly), install(0, 7, &sized_block(20, 9))), "15 0"),
        (case(shelf(close.clone()), install(0, 7, &one)), "15 0"),
        (case(shelf(close), install(0, 100, &one)), "14 0"),
        (case(shelf(full.clone()), install(1, 7, &one)), "0 0"),
        (case(shelf(full), install(0, 7, &one[..17])), "1 e"),
        (case(both.clone(), install(1, 7, &one)), "15 0"),
        (case(both.clone(), fetch(1, 110)), "0 0"),
        (case(both, withdraw(0, 103)), "0 0"),
        (case(over, fetch(0, 7)), "13 0"),
    ]
}
