//! An independent reference evaluator for blocks: run it without a word to see its subcommands.

mod alike;
mod alikes;
mod all;
mod antt;
mod arrows;
mod bite;
mod block;
mod calls;
mod cases;
mod chance;
mod circuit;
mod circuits;
mod codes;
mod coherence;
mod convert;
mod converts;
mod counts;
mod double;
mod doubles;
mod drawn;
mod edge_calls;
mod edge_limits;
mod edges;
mod family;
mod fault;
mod few;
mod generate;
mod heard;
mod heard_cases;
mod kernel;
mod kernels;
mod known;
mod loops;
mod maze;
mod mazes;
mod mesh;
mod met;
mod mutate;
mod net;
mod older;
mod orders;
mod proof;
mod reaction;
mod reason;
mod row;
mod rules;
mod run;
mod scope;
mod selftest;
mod shelf;
mod shelf_cases;
mod shelf_model;
mod shelves;
mod shrink;
mod smallest;
mod state;
mod statement;
mod states;
mod sweep;
mod text;
mod values;
mod why;
mod why_cases;
mod worked;

use std::env;
use std::process;

use cases::Case;

const USAGE: &str = "subcommands:
  worked            every worked case of the document
  coherence [SIZE]  the coherence law over all blocks up to SIZE statements (5)
  orders [SIZE N SEED]  any order of settling, over all blocks up to SIZE statements (5) and N random ones (8000, seed 1)
  older [N SEED]    N instants (40000, seed 1) beside the older rule of a local's absence
  older-smallest SEED  the smallest block found for each way in which an instant was changed from that rule
  circuits [N SEED] N random blocks (4000, seed 1) and all of up to 5 statements as circuits
  states [SIZE N SEED]  states lent to other blocks: all blocks up to SIZE statements (3) and N random ones (4000, seed 1)
  heard [SIZE N SEED]  inputs not heard: all blocks up to SIZE statements (4) and N random ones (2000, seed 1)
  why [SIZE N SEED] reasons beside circuits and executions: all blocks up to SIZE statements (4) and N random ones (3000, seed 1)
  doubts [N SEED]   N refused instants (100, seed 1) of random blocks
  arrows            reads such instants with what a program says that they wait for, and says whether it is true
  shelf [CALLS N SEED]  a shelf beside its model: all histories of CALLS calls (4) on a small one, N random ones (60, seed 1)
  maze [SIZE N SEED]  mazes beside the rounds: all blocks of the form up to SIZE statements (8) and N random ones (4000, seed 1)
  boards [N SEED MOST]  N blocks (100, seed 1) of which there is a maze, of MOST rooms (120) at most, each with an input set
  drawn             reads such blocks with the pages on which a program draws their mazes, and says whether they are true
  alike [SIZE N SEED]  two blocks beside classes of states: all pairs up to SIZE statements (4), N random ones (3000, seed 1)
  copies [SIZE N SEED]  blocks beside doubled ones: all with a loop up to SIZE statements (6), N random ones (2000, seed 1)
  text [MORE N SEED]  every text of up to MORE tokens (5) after the header, and N random blocks (2000, seed 1) read back
  read              reads a text from standard input and writes the block's bytes
  convert [SIZE N SEED]  edition 2 beside its conversion: all up to SIZE statements (5), N random ones (3000, seed 1)
  converted         reads a block of edition 2 from standard input and writes the bytes of its conversion
  bite [CASES]      a case for each fault
  run FOLDER        the run program
  cases [CASES]     lines of calls with their complete answers
  calls [CASES]     the calls as bytes, for a program that answers them
  answers [CASES]   the lines which that program is to print
  counts [CASES]    how many cases of each sort
  few [CASES]       the calls of a few of these, as bytes: all edges, each sort, each fault
  show K [CASES]    the case K of these, with its block as a statement
  pick K [CASES]    the call of case K alone, as bytes
  antt N SEED       rows of small blocks with their answers
  proof N SEED      the same as a module of the proof language
  antt-bite SEED    the smallest row for each wrong rule
  selftest          all of these that can fail
CASES are [FAMILY] N SEED.. (seeds 1 2 3 4) or a file of calls; families are base (20000 cases), heard
and why (8000 each), shelf (1600), maze (4000), alike, copies,
written and convert (2000 each) and text (6000)";

fn main() {
    let words: Vec<String> = env::args().skip(1).collect();
    let number = |n: usize, other: u64| words.get(n).map_or(other, |word| word.parse().unwrap_or_else(|_| usage()));
    let good = match words.first().map(|word| word.as_str()) {
        Some("worked") => worked::print_worked(),
        Some("coherence") => sweep::sweep(number(1, 5) as usize).print(),
        Some("run") if words.len() == 2 => {
            print!("{}", run::run_folder(&words[1]));
            true
        }
        Some("antt") => {
            antt::print_rows(number(1, 100) as usize, number(2, 1));
            true
        }
        Some("proof") => {
            proof::print_module(number(1, 100) as usize, number(2, 1));
            true
        }
        Some("orders") => orders::print_orders(number(1, 5) as usize, number(2, 8000) as usize, number(3, 1)),
        Some("states") => states::print_states(number(1, 3) as usize, number(2, 4000) as usize, number(3, 1)),
        Some("heard") => heard::print_heard(number(1, 4) as usize, number(2, 2000) as usize, number(3, 1)),
        Some("why") => why::print_why(number(1, 4) as usize, number(2, 3000) as usize, number(3, 1)),
        Some("doubts") => arrows::print_doubts(number(1, 100) as usize, number(2, 1)),
        Some("arrows") => arrows::print_arrows(),
        Some("shelf") => shelves::print_shelf(number(1, 4) as usize, number(2, 60) as usize, number(3, 1)),
        Some("maze") => mazes::print_maze(number(1, 8) as usize, number(2, 4000) as usize, number(3, 1)),
        Some("boards") => drawn::print_boards(number(1, 100) as usize, number(2, 1), number(3, 120) as usize),
        Some("drawn") => drawn::print_drawn(),
        Some("alike") => alikes::print_alike(number(1, 4) as usize, number(2, 3000) as usize, number(3, 1)),
        Some("copies") => doubles::print_copies(number(1, 6) as usize, number(2, 2000) as usize, number(3, 1)),
        Some("text") => kernels::print_text(number(1, 5) as usize, number(2, 2000) as usize, number(3, 1)),
        Some("read") => kernels::print_block(),
        Some("converted") => converts::print_converted(),
        Some("convert") => converts::print_convert(number(1, 5) as usize, number(2, 3000) as usize, number(3, 1)),
        Some("older") => older::print_older(number(1, 40_000) as usize, number(2, 1)),
        Some("older-smallest") => older::print_smallest(number(1, 1)),
        Some("circuits") => circuits::print_circuits(5, number(1, 4000) as usize, number(2, 1)),
        Some("antt-bite") => antt::print_smallest(number(1, 1)),
        Some("selftest") => selftest::selftest(),
        Some("show") => calls::show(&one(&named(&words, 2), number(1, 0))),
        Some("pick") => calls::write(&[one(&named(&words, 2), number(1, 0))]),
        Some(word) => on_cases(word, &named(&words, 1)),
        None => usage(),
    };
    process::exit(if good { 0 } else { 1 });
}

/// The subcommands on all of some cases.
fn on_cases(word: &str, cases: &[Case]) -> bool {
    match word {
        "bite" => bite::print_bites(cases, true),
        "cases" => cases::print_cases(cases),
        "calls" => calls::write(cases),
        "answers" => calls::print_answers(cases),
        "counts" => counts::print_counts(cases),
        "few" => calls::write(&few::few(cases)),
        _ => usage(),
    }
}

/// The cases that the words from this one on name.
fn named(words: &[String], from: usize) -> Vec<Case> {
    let words = words.get(from..).unwrap_or_else(|| usage());
    calls::named(words).unwrap_or_else(|why| stop(&why))
}

/// The case with this number, counted from 1.
fn one(cases: &[Case], number: u64) -> Case {
    let at = (number as usize).checked_sub(1);
    at.and_then(|at| cases.get(at)).cloned().unwrap_or_else(|| stop("there is no case with that number"))
}

fn usage() -> ! {
    stop(USAGE)
}

fn stop(why: &str) -> ! {
    eprintln!("{why}");
    process::exit(2)
}
