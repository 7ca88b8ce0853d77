//! Everything that can fail, in under a minute.

use crate::alikes::print_alike;
use crate::bite::print_bites;
use crate::block::{decode, encode};
use crate::calls::{bytes, read, SEEDS};
use crate::cases::{cases, family_edges, Case};
use crate::chance::Chance;
use crate::circuits::print_circuits;
use crate::counts::print_counts;
use crate::converts::print_convert;
use crate::doubles::print_copies;
use crate::edges::edge_blocks;
use crate::family::{Family, FAMILIES};
use crate::fault::Fault;
use crate::heard::print_heard;
use crate::generate::{some_inputs, some_phase};
use crate::kernels::print_text;
use crate::mutate::some_mixed_block;
use crate::mazes::print_maze;
use crate::older::print_older;
use crate::orders::print_orders;
use crate::shelves::print_shelf;
use crate::states::print_states;
use crate::sweep::{sweep, Counts};
use crate::why::print_why;
use crate::worked::print_worked;

/// Worked cases, edges, coherence, orders of settling and circuits over all small and some random blocks, the older rule,
/// states lent to other blocks, inputs not heard, reasons, shelves, mazes, two blocks compared, loop bodies doubled, texts, edition 2, and the faults.
pub fn selftest() -> bool {
    let worked = print_worked();
    let edges = print_edges();
    let coherent = sweep(5).print();
    let random = random_coherence(20_000, 1).print();
    let orders = print_orders(5, 8000, 1);
    let older = print_older(40_000, 1);
    let circuits = print_circuits(5, 4000, 1);
    let states = print_states(3, 4000, 1);
    let heard = print_heard(4, 2000, 1);
    let why = print_why(4, 3000, 1);
    let shelf = print_shelf(4, 40, 1);
    let maze = print_maze(7, 4000, 1);
    let alike = print_alike(3, 3000, 1);
    let copies = print_copies(5, 2000, 1);
    let text = print_text(4, 1000, 1);
    let convert = print_convert(4, 3000, 1);
    let all = FAMILIES.iter().filter(|&&family| !print_family(family)).count() == 0;
    worked && edges && coherent && random && orders && older && circuits && states && heard && why && shelf && maze && alike && copies && text && convert && all
}

/// The cases of a family: kept as bytes, of every sort, and such that they tell every fault.
fn print_family(family: Family) -> bool {
    let cases = cases(family, family.count(), &SEEDS);
    let kept = print_kept(&cases);
    let sorts = print_counts(&cases);
    print_bites(&cases, false) && kept && sorts
}

/// Whether cases written as bytes are read back as they were.
fn print_kept(cases: &[Case]) -> bool {
    let all: Vec<u8> = cases.iter().flat_map(bytes).collect();
    let back = read(&all).unwrap_or_default();
    let same = back.len() == cases.len() && back.iter().zip(cases).all(|(one, other)| one.line() == other.line());
    let how = if same { "as they were" } else { "otherwise" };
    println!("{} cases as {} bytes, read back {how}", cases.len(), all.len());
    same
}

/// Compares every edge with the number and place worked out by hand.
pub fn print_edges() -> bool {
    let mut failures = Vec::new();
    let blocks = edge_blocks();
    let calls: Vec<_> = FAMILIES.iter().flat_map(|&family| family_edges(family)).collect();
    for edge in &blocks {
        let got = decode(&edge.bytes, Fault::None).map_or_else(|r| (r.number, r.place), |_| (0, 0));
        if got != (edge.number, edge.place) {
            failures.push(format!("{}: {got:?}, not {:?}", edge.name, (edge.number, edge.place)));
        }
    }
    for (case, wanted) in &calls {
        let answer = case.answer(Fault::None);
        if !(answer + " ").starts_with(&format!("{wanted} ")) {
            failures.push(format!("{} does not begin with {wanted}", case.line()));
        }
    }
    failures.iter().for_each(|failure| println!("failed edge: {failure}"));
    println!("{} edges, {} failed", blocks.len() + calls.len(), failures.len());
    failures.is_empty()
}

/// The coherence law on random blocks, larger than all small ones and with more locals.
pub fn random_coherence(count: usize, seed: u64) -> Counts {
    let mut chance = Chance::new(seed);
    let mut counts = Counts::default();
    while counts.instants < count {
        let (bytes, block) = some_mixed_block(&mut chance, 4, 16);
        assert_eq!(encode(block.header, &block.root), bytes, "what is read is written back");
        counts.shapes += 1;
        counts.blocks += 1;
        for _ in 0..4 {
            let phase = some_phase(&block, &mut chance);
            let given = some_inputs(&block, &mut chance);
            counts.instant(&block, phase, given);
        }
    }
    counts
}

#[test]
fn all_of_it() {
    assert!(selftest());
}
