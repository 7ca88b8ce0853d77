//! Why a block has no maze: the first of its statements at which it leaves the form, in the words of the form.

use crate::labels::Labels;
use crate::walk::Statement;

/// The form, as every refusal tells it.
pub const FORM: &str = "a maze is built for blocks made of emit, parallel, and present with 'nothing' in exactly one branch; the statement 'nothing' stands nowhere else";

/// What to do about a statement that goes on after the first instant.
pub fn advice(s: &Statement) -> Option<&'static str> {
    let first = "what comes before its first pause can often be cut out as a block of its own: examples/course/pumps shows how";
    Some(first).filter(|_| ["loop", "sequence"].contains(&s.kind.name))
}

/// The statement, and what is wrong with it.
pub fn broken(statements: &[Statement], labels: &Labels) -> Option<(usize, String)> {
    statements.iter().find_map(|s| wrong(statements, s, labels).map(|why| (s.number, why)))
}

fn wrong(statements: &[Statement], s: &Statement, labels: &Labels) -> Option<String> {
    let signal = s.operand.map_or(String::new(), |signal| labels.signal(signal.into()));
    let idle: Vec<bool> = children(statements, s).map(|child| child.kind.name == "nothing").collect();
    match (s.kind.name, idle.as_slice()) {
        ("emit", _) | ("present", [true, false] | [false, true]) | ("parallel", [false, false]) => None,
        ("present", [true, true]) => Some(format!("it tests {} and has 'nothing' in both branches; exactly one branch is 'nothing'", signal)),
        ("present", _) => Some(format!("it tests {} and has a part in both branches; exactly one branch is 'nothing'", signal)),
        ("parallel", _) => Some("an arm of it is 'nothing', which stands only in a branch of a present".to_string()),
        ("nothing", _) if s.level > 0 => None,
        ("nothing", _) => Some("the whole block is 'nothing', which stands only in a branch of a present".to_string()),
        (name, _) => Some(format!("it is {} {}, which no maze has", article(name), name)),
    }
}

fn article(name: &str) -> &'static str {
    if name.starts_with(|c| "aeiou".contains(c)) {
        "an"
    } else {
        "a"
    }
}

fn children<'a>(statements: &'a [Statement], s: &'a Statement) -> impl Iterator<Item = &'a Statement> {
    let below = statements[s.number + 1..].iter().take_while(move |other| other.level > s.level);
    below.filter(move |other| other.level == s.level + 1)
}
