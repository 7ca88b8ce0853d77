//! The tokens of a text with their places, for what is told of it: whether a text is one is the library's to say.

/// The words that are no names.
pub const KEYWORDS: [&str; 17] = [
    "nothing", "pause", "emit", "exit", "present", "suspend", "loop", "trap", "signal", "then", "else", "end", "when", "in", "version", "input", "output",
];
/// So many of these begin a statement.
pub const STATEMENTS: usize = 9;
pub const MARKS: [&str; 5] = [";", ",", "||", "[", "]"];
/// A name has so many letters and digits at most.
pub const NAME_MOST: usize = 16;

#[derive(Clone, Copy, PartialEq, Eq, Debug)]
pub enum Sort {
    Keyword,
    Mark,
    Name,
    Number,
    /// A word or a byte that is no token.
    None,
}

#[derive(Clone, Copy, PartialEq, Eq, Debug)]
pub struct Token<'a> {
    pub place: usize,
    pub bytes: &'a [u8],
    pub sort: Sort,
}

impl Token<'_> {
    pub fn is(&self, word: &str) -> bool {
        self.bytes == word.as_bytes()
    }

    pub fn shown(&self) -> String {
        String::from_utf8_lossy(self.bytes).into_owned()
    }
}

/// All tokens of a text.
pub fn tokens(text: &[u8]) -> Vec<Token<'_>> {
    let mut all = Vec::new();
    let mut at = 0;
    while let Some(token) = next(text, at) {
        at = token.place + token.bytes.len();
        all.push(token);
    }
    all
}

/// The token that begins at a place, or behind the spaces there.
pub fn next(text: &[u8], at: usize) -> Option<Token<'_>> {
    let place = at + text[at..].iter().take_while(|byte| b"\t\n\r ".contains(byte)).count();
    let rest = &text[place..];
    let word = rest.iter().take_while(|byte| byte.is_ascii_alphanumeric()).count();
    let (length, sort) = match MARKS.iter().find(|mark| rest.starts_with(mark.as_bytes())) {
        _ if rest.is_empty() => return None,
        _ if word > 0 => (word, word_sort(&rest[..word])),
        Some(mark) => (mark.len(), Sort::Mark),
        None => (character(rest), Sort::None),
    };
    Some(Token { place, bytes: &rest[..length], sort })
}

fn word_sort(word: &[u8]) -> Sort {
    let text = String::from_utf8_lossy(word);
    match word[0].is_ascii_digit() {
        _ if KEYWORDS.contains(&&*text) => Sort::Keyword,
        false if may_be_name(&text) => Sort::Name,
        true if word.len() <= 5 && text.parse::<u16>().is_ok() => Sort::Number,
        _ => Sort::None,
    }
}

/// Whether a word may be a name in a text.
pub fn may_be_name(word: &str) -> bool {
    let bytes = word.as_bytes();
    let is_word = bytes.first().map_or(false, u8::is_ascii_alphabetic) && bytes.iter().all(u8::is_ascii_alphanumeric);
    is_word && bytes.len() <= NAME_MOST && !KEYWORDS.contains(&word)
}

/// How many bytes the character at the front has; one where it is none.
fn character(bytes: &[u8]) -> usize {
    (1..=bytes.len().min(4)).find(|n| std::str::from_utf8(&bytes[..*n]).is_ok()).unwrap_or(1)
}

#[cfg(test)]
mod tests {
    use super::*;

    #[test]
    fn sorts_and_places() {
        let all = tokens(b"version 7;\n\temit A1||x_y %1a 65535 65536 000001 \xC3\xA4 Then then");
        let sorts: Vec<_> = all.iter().map(|token| (token.place, token.shown(), token.sort)).collect();
        let expected = [
            (0, "version", Sort::Keyword), (8, "7", Sort::Number), (9, ";", Sort::Mark), (12, "emit", Sort::Keyword), (17, "A1", Sort::Name), (19, "||", Sort::Mark),
            (21, "x", Sort::Name), (22, "_", Sort::None), (23, "y", Sort::Name), (25, "%", Sort::None), (26, "1a", Sort::None), (29, "65535", Sort::Number),
            (35, "65536", Sort::None), (41, "000001", Sort::None), (48, "ä", Sort::None), (51, "Then", Sort::Name), (56, "then", Sort::Keyword),
        ];
        assert_eq!(sorts, expected.map(|(place, word, sort)| (place, word.to_string(), sort)));
        assert!(tokens(b" \r\n").is_empty() && tokens(b"|")[0].sort == Sort::None);
    }

    #[test]
    fn names() {
        assert!(may_be_name("A") && may_be_name("ABCDEFGHIJKLMNOP") && may_be_name("Loop"));
        assert!(!may_be_name("") && !may_be_name("ABCDEFGHIJKLMNOPQ") && !may_be_name("loop") && !may_be_name("1A") && !may_be_name("A_B"));
    }
}
