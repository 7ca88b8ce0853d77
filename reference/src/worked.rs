//! Every worked instant, check, state case and the run example, against what the documents say.

use crate::block::{decode, encode_tokens, Header, EXIT, LIMIT, LOOP};
use crate::coherence::{reactions, Slip};
use crate::fault::Fault;
use crate::reaction::Phase;
use crate::row::{agrees, header_of, Row};
use crate::run::run_lines;
use crate::state::{fresh, instant, state_record, Answer, CLASH, OTHER_BLOCK, STATE_SIZE};
use crate::text::read_statement;

/// Name and row; what the document leaves open is `?` or `...`.
const INSTANTS: [(&str, &str); 11] = [
    ("B", "0 | 0 | nothing | fresh | () | 0 - 0 1 ..."),
    ("C", "0 | 1 | (present 0 (emit 0) nothing) | fresh | () | 13 ? 1 1"),
    ("E", "0 | 1 | (present 0 (emit 0) (emit 0)) | fresh | () | 13 ..."),
    ("F", "0 | 1 | (seq (present 0 nothing nothing) (emit 0)) | fresh | () | 13 ..."),
    ("G", "0 | 1 | (trap (local 1 (seq (emit 1) (present 0 (seq (present 1 (exit 0) nothing) (emit 0)) \
           nothing)))) | fresh | () | 0 A 0 2 ..."),
    ("H first", "0 | 2 | (loop (local 2 (seq (present 2 (emit 0) (emit 1)) (seq (pause 0) (emit 2))))) \
                 | fresh | () | 0 AP 1 ? running (0)"),
    ("H second", "0 | 2 | (loop (local 2 (seq (present 2 (emit 0) (emit 1)) (seq (pause 0) (emit 2))))) \
                  | (running 0) | () | 0 AP 1 ..."),
    ("J", "0 | 1 | (seq (trap (par (exit 0) (pause 0))) (emit 0)) | fresh | () | 0 P 0 ? finished ()"),
    ("M", "1 | 2 | (present 0 (present 2 (emit 1) nothing) (present 1 (emit 2) nothing)) \
           | fresh | (0) | 0 AA 0 3 ..."),
    ("N", "0 | 1 | (present 0 (local 1 (seq (local 2 (seq (emit 2) (present 2 nothing (emit 1)))) \
           (present 1 (emit 0) nothing))) nothing) | fresh | () | 13 U 1 1"),
    ("parallel arms", "0 | 0 | (par (pause 0) (pause 1)) | (running 0 1) | () | 0 - 0 ..."),
];

/// What the rule of a local's absence under the mark at hand changed: name, row, and what it was by the older rule.
/// The last two are the smallest blocks found that take more rounds, and that tell less in a 13.
const CHANGED: [(&str, &str, &str); 3] = [
    ("N", INSTANTS[9].1, "0 A 0 2 ..."),
    ("more rounds", "0 | 2 | (present 0 nothing (local 2 (local 3 (seq (emit 3) (present 3 nothing \
                     (present 2 (emit 1) (emit 2))))))) | fresh | () | 0 AA 0 3 finished ()", "0 AA 0 2 finished ()"),
    ("less known", "0 | 2 | (present 1 (emit 1) (local 2 (local 3 (seq (emit 3) (present 3 nothing \
                    (present 2 (emit 0) (emit 2))))))) | fresh | () | 13 UU 2 1", "13 AU 1 2"),
];

/// Name, inputs, outputs, statement, the number it gets and its place.
const CHECKS: [(&str, u16, u16, &str, u16, usize); 9] = [
    ("loop nothing", 0, 0, "(loop nothing)", LOOP, 14),
    ("loop present", 1, 0, "(loop (present 0 pause nothing))", LOOP, 14),
    ("loop trap exit", 0, 0, "(loop (trap (exit 0)))", LOOP, 14),
    ("loop pause", 0, 0, "(loop pause)", 0, 0),
    ("trap loop exit", 0, 0, "(trap (loop (exit 0)))", 0, 0),
    ("64 signals", 32, 32, "nothing", 0, 0),
    ("65 signals", 32, 33, "nothing", LIMIT, 0),
    ("depth 0", 0, 0, "(trap (exit 0))", 0, 0),
    ("depth 1", 0, 0, "(trap (exit 1))", EXIT, 18),
];

const RUN_BLOCK: [u8; 34] = [
    0x0E, 0, 1, 0, 1, 0, 7, 0, 1, 0, 1, 0, 0, 0, 6, 0, 0x14, 0, 0, 0, 4, 0, 0x15, 0, 4, 0, 0x11, 0, 6, 0, 0x12, 0,
    1, 0,
];

/// Names of the cases with whether each came out as said.
pub fn worked_cases() -> Vec<(String, bool)> {
    let mut cases: Vec<(String, bool)> = Vec::new();
    for (name, text) in INSTANTS {
        let (row, column) = Row::read(text);
        cases.push((format!("instant {name}"), agrees(&column, &row.expected(Fault::None))));
    }
    for (name, text, before) in CHANGED {
        let (row, column) = Row::read(text);
        cases.push((format!("instant {name} now"), agrees(&column, &row.expected(Fault::None))));
        cases.push((format!("instant {name} before"), agrees(before, &row.expected(Fault::AbsenceUnderPlus))));
    }
    cases.push(("E has one coherent reaction".to_string(), one_reaction(INSTANTS[2].1)));
    for (name, inputs, outputs, text, number, place) in CHECKS {
        let tokens = read_statement(text);
        let bytes = encode_tokens(header_of(inputs, outputs, &tokens), &tokens);
        let got = decode(&bytes, Fault::None).map_or_else(|r| (r.number, r.place), |_| (0, 0));
        cases.push((format!("check {name}"), got == (number, place)));
    }
    cases.push(("clash of a sequence".to_string(), clash()));
    cases.push(("run program".to_string(), run_example()));
    cases.extend(named_states());
    cases
}

fn one_reaction(text: &str) -> bool {
    let (row, _) = Row::read(text);
    let block = row.block().expect("a good block");
    reactions(Slip::None, &block, row.phase, row.given).len() == 1
}

/// pause; pause with both active.
fn clash() -> bool {
    let tokens = read_statement("(seq pause pause)");
    let bytes = encode_tokens(header_of(0, 0, &tokens), &tokens);
    let read = decode(&bytes, Fault::None).expect("a good block");
    let mut state = state_record(&read, Phase::Running(3));
    let before = state.clone();
    let answer = instant(&bytes, &mut state, 0, Fault::None);
    (answer.number, answer.first, answer.second) == (CLASH, 0, 1) && state == before
}

fn run_example() -> bool {
    let inputs: Vec<u8> = [1u64, 1, 0].iter().flat_map(|set| set.to_le_bytes()).collect();
    run_lines(&RUN_BLOCK, &inputs) == "1 0 1 0 1 2\n2 0 1 0 1 2\n3 0 0 2 0 2\n"
}

/// The block of the run example: a fresh state names version 7 and 4 statements, and so does the next. Of two blocks with one
/// version and as many statements it cannot tell which it is.
fn named_states() -> Vec<(String, bool)> {
    let mut state = vec![0xA5; STATE_SIZE];
    let written = fresh(&RUN_BLOCK, &mut state, Fault::None).number == 0;
    let first = [&[26, 0, 2, 0, 7, 0, 4, 0, 0, 0][..], &[0; 16]].concat();
    let mut cases = vec![("a fresh state".to_string(), written && state == first)];
    let answered = instant(&RUN_BLOCK, &mut state, 1, Fault::None).number == 0;
    let second = [&[26, 0, 2, 0, 7, 0, 4, 0, 1, 0, 1][..], &[0; 15]].concat();
    cases.push(("the next state".to_string(), answered && state == second));
    let mut version = RUN_BLOCK;
    version[6] = 8;
    let refused = instant(&version, &mut state, 0, Fault::None) == Answer { number: OTHER_BLOCK, ..Answer::default() };
    cases.push(("a state of another version".to_string(), refused && state == second));
    let block = |text: &str| {
        let tokens = read_statement(text);
        encode_tokens(Header { version: 0, ..header_of(0, 0, &tokens) }, &tokens)
    };
    let mut state = vec![0; STATE_SIZE];
    fresh(&block("nothing"), &mut state, Fault::None);
    let taken = instant(&block("pause"), &mut state, 0, Fault::None);
    cases.push(("a block that is not told apart".to_string(), (taken.number, taken.code, taken.active) == (0, 1, 1)));
    cases
}

/// Prints each failure and the counts; true if there is none.
pub fn print_worked() -> bool {
    let cases = worked_cases();
    cases.iter().filter(|case| !case.1).for_each(|case| println!("failed: {}", case.0));
    let passed = cases.iter().filter(|case| case.1).count();
    println!("{passed} passed, {} failed", cases.len() - passed);
    passed == cases.len()
}
