//! What is wrong where a text has a 15, as far as more can be said than what is found and what may stand there. Nothing hangs on it: it is told, and decides nothing.

use super::fault::{called, last, quoted, wanted, May};
use super::place;
use super::source::Source;
use super::token::{tokens, Sort, Token, KEYWORDS, NAME_MOST, STATEMENTS};
use crate::args::nearest;

/// The hint at a place with this token, or at the end of the text.
pub fn of(text: &[u8], before: &[u8], found: Option<Token>, may: &May) -> Option<String> {
    let of_token = found.and_then(|token| why(text, before, &token, may));
    of_token.or_else(|| one_too_many(text, before, found, may)).or_else(|| closing(text, before, found, may)).or_else(|| header(before, found?, may)).or_else(|| statements(may))
}

/// What is wrong with a token that may not stand here.
fn why(text: &[u8], before: &[u8], token: &Token, may: &May) -> Option<String> {
    let wants_name = may.is_new_name || !may.names.is_empty();
    let last = last(before);
    let begins = KEYWORDS[..STATEMENTS].iter().any(|word| token.is(word));
    match token.sort {
        Sort::None => no_token(token, may),
        Sort::Keyword if wants_name => Some(format!("{} is a keyword, and no name", quoted(&token.shown()))),
        Sort::Keyword if begins && last == "end" && may.is_after() => Some("no word follows 'end': it closes the last statement that is open".to_string()),
        Sort::Keyword if begins && may.is_after() => Some("between two statements stands ';', or '||' where they run beside each other".to_string()),
        Sort::Name if may.is_new_name => again(text, before, token),
        Sort::Name if wants_name || matches!(last.as_str(), "emit" | "present" | "when" | "exit") => undeclared(text, before, token, may, &last),
        Sort::Name => everyday(&token.shown()).filter(|_| may.is_statement()).or_else(|| misspelt(&token.shown(), may)),
        _ => None,
    }
}

/// What one of the four statements of edition 2, which has no text, is in a text.
fn everyday(word: &str) -> Option<String> {
    let form = match word {
        "halt" => "loop pause end",
        "sustain" => "loop emit S; pause end",
        "await" => "trap T in loop pause; present S then exit T else nothing end end end",
        "abort" => "trap T in suspend P when S; exit T || loop pause; present S then exit T else nothing end end end",
        _ => return None,
    };
    Some(format!("'{}' is of edition 2, which has no text; written out it is: {}", word, form))
}

/// A word that is near a keyword which may stand here.
fn misspelt(word: &str, may: &May) -> Option<String> {
    let small = word.to_ascii_lowercase();
    if let Some(keyword) = may.keywords.iter().find(|keyword| **keyword == small) {
        return Some(format!("a keyword has small letters alone: is '{}' meant?", keyword));
    }
    let sorted = |word: &str| {
        let mut letters = word.as_bytes().to_vec();
        letters.sort_unstable();
        letters
    };
    let turned = may.keywords.iter().copied().find(|keyword| sorted(keyword) == sorted(&small));
    turned.or_else(|| nearest(&small, may.keywords.iter().copied())).map(|keyword| format!("is '{}' meant?", keyword))
}

fn no_token(token: &Token, may: &May) -> Option<String> {
    let word = called(token);
    let first = *token.bytes.first()?;
    Some(match first {
        b'-' | b'+' if may.is_number => "a version is a number from 0 to 65,535, without a sign".to_string(),
        b'%' | b'#' | b'/' | b'-' => format!("{} is no token, and a text has no comments", word),
        b'_' => "'_' is no token: a name is letters and digits".to_string(),
        b'|' => "one '|' is no token: a parallel is '||'".to_string(),
        b'(' | b')' => format!("{} is no token: brackets are '[' and ']'", word),
        _ if token.bytes == b"\xEF\xBB\xBF" => "save the text without a byte order mark: it is plain ASCII".to_string(),
        _ if word != quoted(&token.shown()) => format!("{} is no token: a plain space stands between words", word),
        _ if first.is_ascii_alphabetic() => format!("a name has at most {} letters and digits, and this has {}", NAME_MOST, token.bytes.len()),
        _ if token.bytes.iter().all(u8::is_ascii_digit) => "a number has one to five digits, and is at most 65,535".to_string(),
        _ if first.is_ascii_digit() => format!("{} begins with a digit: a name begins with a letter, and a number has digits alone", word),
        _ if token.shown().chars().all(char::is_alphabetic) => format!("{} is no token: a name is of A to Z, a to z and 0 to 9", word),
        _ => format!("{} is no token", word),
    })
}

fn on_line(text: &[u8], at: usize) -> usize {
    place::of(text, at).line
}

/// A ';' behind the last statement.
fn one_too_many(text: &[u8], before: &[u8], found: Option<Token>, may: &May) -> Option<String> {
    let semicolon = tokens(before).pop().filter(|token| token.is(";"))?;
    let is_closed = found.map_or(true, |token| ["end", "]", "||", "else", "when"].iter().any(|word| token.is(word)));
    let is_last = is_closed && may.is_statement() && !Source::of(before).records.is_empty();
    Some(format!("';' stands between statements, and none behind the last: leave out that on line {}", on_line(text, semicolon.place))).filter(|_| is_last)
}

/// A construct that is open, with whether its 'else' has come.
struct Open<'a> {
    token: Token<'a>,
    has_else: bool,
}

/// What is open behind the front of a text, the innermost last.
fn open(before: &[u8]) -> Vec<Open<'_>> {
    let mut all: Vec<Open> = Vec::new();
    for token in tokens(before) {
        match token.bytes {
            b"[" | b"loop" | b"suspend" | b"trap" | b"signal" | b"present" => all.push(Open { token, has_else: false }),
            b"]" | b"end" | b"when" => drop(all.pop()),
            b"else" => all.iter_mut().rev().take(1).for_each(|open| open.has_else = true),
            _ => {}
        }
    }
    all
}

/// What is open where the text ends or closes something else.
fn closing(text: &[u8], before: &[u8], found: Option<Token>, may: &May) -> Option<String> {
    let closer = found.map(|token| token.shown());
    let is_closing = closer.as_deref().map_or(true, |word| matches!(word, "end" | "]" | "when" | "else"));
    if !is_closing || !may.is_after() && (found.is_some() || !may.is_statement()) {
        return None;
    }
    let open = open(before);
    let innermost = match (open.last(), &closer) {
        (Some(innermost), _) => innermost,
        (None, Some(word)) => return Some(format!("nothing is open here that '{}' could close", word)),
        (None, None) => return None,
    };
    let said = format!("'{}' on line {} is open", innermost.token.shown(), on_line(text, innermost.token.place));
    Some(match innermost.token.bytes {
        b"present" if !innermost.has_else => format!("{} and has no 'else' yet: 'else nothing end' where nothing is to be done then", said),
        b"[" => format!("{}: ']' closes it", said),
        b"suspend" => format!("{}: 'when' and a signal close it", said),
        _ => format!("{}: 'end' closes it", said),
    })
}

/// Declarations in another order than the grammar has them, or after it.
fn header(before: &[u8], found: Token, may: &May) -> Option<String> {
    let has = |word: &str| tokens(before).iter().any(|token| token.is(word));
    if !may.is_statement() || !(found.is("input") || found.is("output")) {
        return None;
    }
    Some(match found.shown().as_str() {
        _ if !Source::of(before).records.is_empty() => format!("{} stands before the first statement", called(&found)),
        word if has(word) => format!("all {}s stand in one list: {} A, B;", word, word),
        _ => "the inputs stand before the outputs: input A; output B;".to_string(),
    })
}

/// What a statement begins with, where one may stand.
fn statements(may: &May) -> Option<String> {
    Some(format!("a statement begins with {} or '['", KEYWORDS[..STATEMENTS].join(", "))).filter(|_| may.is_statement())
}

/// A name that is declared around its new declaration.
fn again(text: &[u8], before: &[u8], token: &Token) -> Option<String> {
    let source = Source::of(before);
    let first = source.around.iter().find(|declared| declared.name == token.bytes)?;
    Some(format!("{} is declared already, on line {}, and that holds here", quoted(&token.shown()), on_line(text, first.place)))
}

/// A name that is not declared around its use, or not as what it is used.
fn undeclared(text: &[u8], before: &[u8], token: &Token, may: &May, last: &str) -> Option<String> {
    let source = Source::of(before);
    let (word, wants) = (quoted(&token.shown()), wanted(last));
    if let Some(around) = source.around.iter().find(|declared| declared.name == token.bytes) {
        let is = if around.signal.is_none() { "a trap" } else { "a signal" };
        return Some(format!("{} is {}, declared on line {}, and '{}' names {}", word, is, on_line(text, around.place), last, wants));
    }
    if let Some(ended) = source.declared.iter().rev().find(|declared| declared.name == token.bytes) {
        return Some(format!("{} was declared on line {}, and its scope has ended", word, on_line(text, ended.place)));
    }
    Some(match nearest(&token.shown(), may.names.iter().map(String::as_str)) {
        Some(near) => format!("{} is not declared here; is '{}' meant?", word, near),
        None if may.names.is_empty() => format!("{} is not declared here, nor is any other name of {}", word, wants),
        None => format!("{} is not declared here", word),
    })
}
