//! A 15 in words: what is found at its place, and what may stand there. The latter is found by trying each keyword, mark, name and number there with the library's reader: one that may stand
//! moves the fault on, or there is none any more.

use super::source::Source;
use super::token::{next, tokens, Sort, Token, KEYWORDS, MARKS, STATEMENTS};
use super::{hint, read, TEXT};
use crate::files::printable;
use foldheron::Refusal;

/// What a text has at the place of a 15, and what it may have.
pub struct Fault {
    pub found: String,
    /// What may stand there, in words.
    pub may: Vec<String>,
    /// What is wrong with what is found, where more can be said.
    pub why: Option<String>,
}

impl Fault {
    pub fn of(text: &[u8], at: usize) -> Fault {
        let before = &text[..at];
        let found = next(text, at);
        let may = May::at(before);
        let why = hint::of(text, before, found, &may);
        Fault { found: found.map_or("the end of the text".to_string(), |token| called(&token)), may: may.in_words(before), why }
    }

    /// The line that an editor shows.
    pub fn line(&self) -> String {
        match self.may.split_last() {
            None => format!("found {} where nothing may stand", self.found),
            Some((last, [])) => format!("found {} where {} may stand", self.found, last),
            Some((last, others)) => format!("found {} where {} or {} may stand", self.found, others.join(", "), last),
        }
    }
}

pub fn quoted(word: &str) -> String {
    format!("'{}'", printable(word))
}

/// A token as it is told; by its name where it cannot be seen.
pub fn called(token: &Token) -> String {
    match token.bytes {
        b"\xEF\xBB\xBF" => "a byte order mark (BOM)".to_string(),
        b"\xC2\xA0" => "a no-break space".to_string(),
        b"\xE2\x80\x8B" => "a zero width space".to_string(),
        _ => quoted(&token.shown()),
    }
}

/// What may stand behind the front of a text.
pub struct May {
    pub keywords: Vec<&'static str>,
    pub marks: Vec<&'static str>,
    pub is_number: bool,
    /// A name that is declared nowhere before.
    pub is_new_name: bool,
    /// The names that are declared before and may stand here.
    pub names: Vec<String>,
    is_end: bool,
}

impl May {
    fn at(before: &[u8]) -> May {
        let may = |word: &str| may_stand(before, word);
        let mut names: Vec<String> = tokens(before).iter().filter(|token| token.sort == Sort::Name).map(Token::shown).collect();
        names.sort();
        names.dedup();
        // An input behind 'emit' is in the grammar, and refused with another number.
        if last(before) == "emit" {
            let source = Source::of(before);
            names.retain(|name| !source.signals[..source.inputs].iter().any(|input| input.name == name.as_bytes()));
        }
        let fresh = (0..).map(|n| format!("N{}", n)).find(|name| !names.contains(name));
        May {
            keywords: KEYWORDS.iter().copied().filter(|word| may(word)).collect(),
            marks: MARKS.iter().copied().filter(|word| may(word)).collect(),
            is_number: may("0"),
            is_new_name: fresh.map_or(false, |name| may(&name)),
            names: names.into_iter().filter(|name| may(name)).collect(),
            is_end: !is_fault(before, before.len()),
        }
    }

    /// Whether any statement may begin here.
    pub fn is_statement(&self) -> bool {
        self.keywords.iter().filter(|word| KEYWORDS[..STATEMENTS].contains(word)).count() == STATEMENTS
    }

    /// Whether a statement is whole here.
    pub fn is_after(&self) -> bool {
        self.marks.contains(&";") && self.marks.contains(&"||")
    }

    fn in_words(&self, before: &[u8]) -> Vec<String> {
        let begins = |word: &&str| KEYWORDS[..STATEMENTS].contains(word);
        let is_statement = self.is_statement();
        let mut all: Vec<String> = Vec::new();
        all.extend(is_statement.then(|| "a statement".to_string()));
        all.extend(self.is_new_name.then(|| "a name that is not declared here".to_string()));
        all.extend((!self.is_new_name && !self.names.is_empty()).then(|| self.names_in_words()));
        all.extend(self.is_number.then(|| "a number".to_string()));
        all.extend(self.keywords.iter().filter(|word| !(is_statement && begins(word))).map(|word| quoted(word)));
        all.extend(self.marks.iter().filter(|mark| !(is_statement && **mark == "[")).map(|mark| quoted(mark)));
        all.extend(self.is_end.then(|| "the end of the text".to_string()));
        // Where a declared name is due and none is there, nothing that is tried may stand.
        all.extend(all.is_empty().then(|| format!("the name of {} that is declared here", wanted(&last(before)))));
        all
    }

    /// The declared names, the first of them where there are many.
    fn names_in_words(&self) -> String {
        const SHOWN: usize = 8;
        let more = self.names.len().saturating_sub(SHOWN);
        let names: Vec<&str> = self.names.iter().take(SHOWN).map(String::as_str).collect();
        let rest = if more == 0 { String::new() } else { format!(" and {} more", more) };
        format!("a declared name ({}{})", names.join(", "), rest)
    }
}

/// The last token, as it stands.
pub fn last(before: &[u8]) -> String {
    tokens(before).last().map(Token::shown).unwrap_or_default()
}

/// What a keyword before a declared name wants it to be.
pub fn wanted(keyword: &str) -> &'static str {
    match keyword {
        "exit" => "a trap",
        "emit" => "an output or a local",
        _ => "a signal",
    }
}

/// Whether the reader refuses a text with 15 at this place.
fn is_fault(text: &[u8], at: usize) -> bool {
    matches!(read(text), Err(Refusal { number: TEXT, place }) if place == at)
}

fn may_stand(before: &[u8], word: &str) -> bool {
    let tried = [before, b" ", word.as_bytes()].concat();
    !is_fault(&tried, before.len() + 1)
}
