//! The words of the language.

/// Words that begin a line. They may be names, since no line begins with a name but for `REGISTER =`.
pub(crate) const LINE_WORDS: &[&str] = &[
    "host",
    "cookie",
    "url",
    "connection",
    "script",
    "session",
    "readers",
    "writers",
    "partner",
    "registers",
    "read",
    "write",
    "request",
    "skip",
    "picture",
    "end",
    "step",
    "load",
    "response",
    "redirect",
    "record",
];

/// Words that stand within a line. None of them is a name, so that a name that was left out is noticed.
const INNER_WORDS: &[&str] = &[
    "always", "at", "entry", "everyone", "except", "for", "gives", "http", "https", "if", "into",
    "is", "key", "nobody", "number", "of", "on", "readers", "runs", "sets", "then", "to",
];

/// The most bytes of a name.
pub(crate) const NAME_BYTES: usize = 64;

/// Whether a line can begin with this word.
pub(crate) fn begins_a_line(word: &str) -> bool {
    LINE_WORDS.contains(&word)
}

/// Whether this word is no name.
pub(crate) fn is_reserved(word: &str) -> bool {
    INNER_WORDS.contains(&word)
}

/// The most characters of a text's own words in a message.
const QUOTED: usize = 48;

/// Words of the text in a message: in back quotes, and cut where they are long.
pub(crate) fn quoted(words: &str) -> String {
    match words.char_indices().nth(QUOTED) {
        Some((cut, _)) => format!("`{}..`", &words[..cut]),
        None => format!("`{words}`"),
    }
}

#[cfg(test)]
mod tests {
    use super::*;

    #[test]
    fn what_is_quoted_is_cut() {
        assert_eq!(quoted("bank"), "`bank`");
        let long = quoted(&"é".repeat(1000));
        assert_eq!(long.chars().count(), QUOTED + 4);
    }
}
