//! Rows as a module of the proof language, so that the product's definitions are computed on them and compared.

use crate::antt::{law_rows, some_rows};
use crate::block::{Form, Token};
use crate::coherence::{reactions, Outcome, Slip};
use crate::fault::Fault;
use crate::reaction::{active_of, Phase, Reaction};
use crate::row::Row;
use crate::rules::Rules;
use crate::values::signal_bit;

/// What every such module begins with: the definitions that the rows are written in.
const HEAD: &str = "-- Random blocks with the answers of the reference evaluator, and with all their coherent reactions. Assumes nothing.
use mathlib.Core.Path.{◌≡◌, refl}
use mathlib.Core.Bool.{true, false}
use mathlib.Core.List.{List, [], ◌∷◌, map}
use Rattle.sets.specs.Numbers.{members, listed, some_to, maxima, down, downs, lowest}
use Rattle.rules.specs.Statements.{depth, code, nothing, pause, emit, present?◌then◌else◌, suspend◌on◌, ◌⨾◌, loop, ◌parallel◌, trap, exit, local, pauses}
use Rattle.rules.specs.Events.{present, absent, unknown, event}
use Rattle.rules.specs.Instant.{any, active, held, started, resumed}
use Rattle.rules.specs.MustCan.{gives}
use Rattle.rules.specs.States.{fresh, finished, phase_of, active_of, step, kept, next}
use Rattle.rules.specs.Rounds.{marks, round, begin, undecided, all_same, settle, final_of, answer, react}
use Rattle.rules.specs.Coherence.{execute, world}
use Rattle.rules.proofs.Cases.{Row, row, active_on, ends, waits, stuck, answers}
use Rattle.rules.proofs.AllRuns.{assigned, runs, all_outs, outs_agree, reactions}
use Rattle.rules.proofs.CoherentTable.{LawRow, law, finishes, stays_on, coherent_of}
";

/// All that has to be opened for an answer to be computed.
const OPENED: &str = "unfolding react listed members pauses phase_of active_of undecided gives kept started resumed any active held code marks round begin all_same settle final_of answer some_to maxima down downs lowest step next event";

/// All that has to be opened for the coherent reactions to be computed.
const LAW_OPENED: &str = "unfolding reactions listed members pauses phase_of active_of runs assigned execute all_outs outs_agree started resumed any active held code down step next world";

/// How many rows one statement of equality takes.
const TOGETHER: usize = 20;

/// Prints a module that is accepted exactly if the definitions give every row's answer and coherent reactions. A quarter as many rows
/// are added that tell wrong versions of the coherence law.
pub fn print_module(count: usize, seed: u64) {
    println!("{HEAD}");
    let rows = some_rows(count, seed);
    print_equal("rows", "Row", "answers", "told", OPENED, &rows.iter().map(in_proof).collect::<Vec<String>>());
    let laws: Vec<String> = rows.iter().chain(&law_rows((count + 3) / 4, seed)).map(law).collect();
    print_equal("laws", "LawRow", "coherent_of", "coherent", LAW_OPENED, &laws);
}

/// Prints lists of rows, and of each that what is computed is what the rows tell.
fn print_equal(name: &str, of: &str, computed: &str, told: &str, opened: &str, rows: &[String]) {
    for (n, lines) in rows.chunks(TOGETHER).enumerate() {
        println!("abbrev {name}{n} : List {of}\n{name}{n} = {} ∷ []\n", lines.join("\n    ∷ "));
        println!("{name}_agree{n} : map {computed} {name}{n} ≡ map (λ r. r.{told}) {name}{n}\n{opened}\n{name}_agree{n} = refl\n");
    }
}

/// A row with its answer.
fn in_proof(row: &Row) -> String {
    let block = row.block().expect("a row holds a good block");
    let reaction = Rules { fault: Fault::None }.react(&block, row.phase, row.given);
    format!("row {} ({})", instant(row), told(row, &reaction))
}

/// A row with every coherent reaction, one for each coherent assignment: those with the first output present first, and so on.
fn law(row: &Row) -> String {
    let block = row.block().expect("a row holds a good block");
    let mut found = reactions(Slip::None, &block, row.phase, row.given);
    found.sort_by_key(|outcome| present(row, outcome).map(|present| !present).collect::<Vec<bool>>());
    let all = list(found.iter().map(|outcome| lawful(row, outcome)));
    format!("law {} {all}", instant(row))
}

fn lawful(row: &Row, outcome: &Outcome) -> String {
    let outs = list(present(row, outcome).map(|present| present.to_string()));
    match outcome.code {
        1 => format!("stays_on {outs} {}", list_of(outcome.kept)),
        _ => format!("finishes {outs}"),
    }
}

/// Whether each output is present, in signal order.
fn present<'a>(row: &Row, outcome: &'a Outcome) -> impl Iterator<Item = bool> + 'a {
    (row.inputs..row.inputs + row.outputs).map(move |signal| outcome.signals & signal_bit(signal) != 0)
}

/// The counts, the statement, the state and the given inputs.
fn instant(row: &Row) -> String {
    let state = match row.phase {
        Phase::Fresh => "fresh".to_string(),
        Phase::Finished => "finished".to_string(),
        Phase::Running(active) => format!("(active_on {})", list_of(active)),
    };
    let mut pauses = 0;
    let mut statement = String::new();
    statement_from(&row.tokens, 0, &mut pauses, &mut statement);
    format!("{} {} {statement} {state} {}", row.inputs, row.outputs, list_of(row.given as u128))
}

fn told(row: &Row, reaction: &Reaction) -> String {
    let statuses = list((row.inputs..row.inputs + row.outputs).map(|signal| status(reaction, signal).to_string()));
    match reaction.code {
        None => format!("stuck {statuses} {} {}", reaction.undecided, reaction.rounds),
        Some(0) => format!("ends {statuses} {}", reaction.rounds),
        Some(_) => format!("waits {statuses} {} {}", reaction.rounds, list_of(active_of(reaction.next))),
    }
}

fn status(reaction: &Reaction, signal: u16) -> &'static str {
    match signal_bit(signal) {
        bit if reaction.present & bit != 0 => "present",
        bit if reaction.absent & bit != 0 => "absent",
        _ => "unknown",
    }
}

fn list(words: impl Iterator<Item = String>) -> String {
    words.fold("(".to_string(), |text, word| text + &word + " ∷ ") + "[])"
}

fn list_of(set: u128) -> String {
    list((0..128u32).filter(|n| set >> n & 1 == 1).map(|n| n.to_string()))
}

/// Writes the statement at a place in preorder and gives the place after it.
fn statement_from(tokens: &[Token], at: usize, pauses: &mut usize, text: &mut String) -> usize {
    let (form, operand) = tokens[at];
    if form == Form::Nothing {
        text.push_str("nothing");
        return at + 1;
    }
    let number = if form == Form::Pause { *pauses } else { operand as usize };
    *pauses += (form == Form::Pause) as usize;
    let [before, between, after] = words(form, number);
    text.push('(');
    text.push_str(&before);
    let mut next = at + 1;
    for part in 0..form.parts() {
        if part == 1 {
            text.push_str(&between);
        }
        next = statement_from(tokens, next, pauses, text);
    }
    text.push_str(&after);
    text.push(')');
    next
}

/// What stands before, between and after a statement's parts.
fn words(form: Form, number: usize) -> [String; 3] {
    let (before, between, after) = match form {
        Form::Nothing => ("nothing".to_string(), "", String::new()),
        Form::Pause => (format!("pause {number}"), "", String::new()),
        Form::Emit => (format!("emit {number}"), "", String::new()),
        Form::Present => (format!("present? {number} then "), " else ", String::new()),
        Form::Suspend => ("suspend ".to_string(), "", format!(" on {number}")),
        Form::Sequence => (String::new(), " ⨾ ", String::new()),
        Form::Loop => ("loop ".to_string(), "", String::new()),
        Form::Parallel => (String::new(), " parallel ", String::new()),
        Form::Trap => ("trap ".to_string(), "", String::new()),
        Form::Exit => (format!("exit (depth {number})"), "", String::new()),
        Form::Local => (format!("local {number} "), "", String::new()),
        Form::Halt | Form::Sustain | Form::Await | Form::Abort => unreachable!("a statement of edition 2"),
    };
    [before, between.to_string(), after]
}
