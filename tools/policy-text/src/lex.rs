//! From bytes to words: one lexeme at a time, so that a text of any length takes no room of its own.

use crate::span::{beginning, Span};
use crate::words::begins_a_line;

/// What a text is made of.
#[derive(Clone, Copy, Debug, PartialEq, Eq)]
pub(crate) enum Token<'t> {
    /// A name or a word of the language.
    Word(&'t str),
    /// Decimal digits.
    Number(&'t str),
    /// Letters, digits, `_`, `-` and `.` in a row that are neither: `0f`, `-5`.
    Mixed(&'t str),
    Comma,
    Equals,
    Plus,
    /// Any other ASCII sign.
    Sign(char),
    LineEnd,
    FileEnd,
    Bad(Bad),
}

/// What may stand nowhere, or only in comments.
#[derive(Clone, Copy, Debug, PartialEq, Eq)]
pub(crate) enum Bad {
    NotUtf8(u8),
    Control(char),
    /// It makes what follows look as if it stood elsewhere.
    Direction(char),
    OutsideComment(char),
}

#[derive(Clone, Copy, Debug)]
pub(crate) struct Lexeme<'t> {
    pub token: Token<'t>,
    /// Empty for the ends of lines and of the text: right after what is last there.
    pub span: Span,
    /// The comma, at the end of a line before, by which this line goes on from that one.
    pub joined: Option<usize>,
}

pub(crate) struct Lexer<'t> {
    text: &'t [u8],
    place: usize,
    /// The end of the last lexeme of this line.
    last_end: usize,
    /// The last lexeme, where it was a comma.
    comma: Option<usize>,
    /// Newlines before this place are passed over: a comma came last.
    goes_on_to: usize,
    joined: Option<usize>,
}

impl<'t> Lexer<'t> {
    pub fn new(text: &'t [u8]) -> Lexer<'t> {
        let place = beginning(text);
        Lexer {
            text,
            place,
            last_end: place,
            comma: None,
            goes_on_to: 0,
            joined: None,
        }
    }

    pub fn next(&mut self) -> Lexeme<'t> {
        if let Some((bad, span)) = self.skip_blanks() {
            // Whether the line goes on depends on what stands before the comment.
            return Lexeme {
                token: Token::Bad(bad),
                span,
                joined: self.joined,
            };
        }
        match self.text.get(self.place) {
            None => self.end(Token::FileEnd),
            Some(b'\n') => self.line_end(),
            Some(&byte) if is_of_a_run(byte) => self.run(),
            Some(byte) if byte.is_ascii_graphic() => self.sign(char::from(*byte)),
            Some(_) => self.bad(),
        }
    }

    /// Passes over spaces, comments, and line ends after a comma. Tells of what may not stand in a comment.
    fn skip_blanks(&mut self) -> Option<(Bad, Span)> {
        loop {
            match self.text.get(self.place) {
                Some(b' ' | b'\t') => self.place += 1,
                Some(b'\r') if self.text.get(self.place + 1) == Some(&b'\n') => self.place += 1,
                Some(b'\n') if self.goes_on() => self.place += 1,
                Some(b'#') => {
                    let bad = self.comment();
                    if bad.is_some() {
                        return bad;
                    }
                }
                _ => return None,
            }
        }
    }

    /// Whether the line that ends here goes on in the next: it ends in a comma, and the next does not begin a clause.
    fn goes_on(&mut self) -> bool {
        if self.place < self.goes_on_to {
            return true;
        }
        let Some(comma) = self.comma else {
            return false;
        };
        let next = next_word(self.text, self.place);
        let run = run_at(self.text, next);
        if next == self.text.len() || begins_a_line(run) {
            return false;
        }
        self.goes_on_to = next;
        self.joined = Some(comma);
        true
    }

    fn comment(&mut self) -> Option<(Bad, Span)> {
        let start = self.place;
        let rest = &self.text[start..];
        let length = rest.iter().position(|byte| *byte == b'\n');
        self.place = length.map_or(self.text.len(), |length| start + length);
        let comment = &self.text[start..self.place];
        let comment = match comment.strip_suffix(b"\r") {
            Some(shorter) if length.is_some() => shorter,
            _ => comment,
        };
        first_bad(comment).map(|(bad, at, length)| {
            let start = start + at;
            let end = start + length;
            (bad, Span { start, end })
        })
    }

    fn run(&mut self) -> Lexeme<'t> {
        let run = run_at(self.text, self.place);
        let token = match run.as_bytes()[0] {
            b'a'..=b'z' | b'A'..=b'Z' | b'_' => Token::Word(run),
            _ if run.bytes().all(|byte| byte.is_ascii_digit()) => Token::Number(run),
            _ => Token::Mixed(run),
        };
        self.take(token, run.len())
    }

    fn sign(&mut self, sign: char) -> Lexeme<'t> {
        let token = match sign {
            ',' => Token::Comma,
            '=' => Token::Equals,
            '+' => Token::Plus,
            _ => Token::Sign(sign),
        };
        self.take(token, 1)
    }

    fn bad(&mut self) -> Lexeme<'t> {
        let (bad, length) = bad_at(&self.text[self.place..]);
        self.take(Token::Bad(bad), length)
    }

    fn take(&mut self, token: Token<'t>, length: usize) -> Lexeme<'t> {
        let start = self.place;
        self.place += length;
        let end = self.place;
        self.lexeme(token, Span { start, end })
    }

    fn lexeme(&mut self, token: Token<'t>, span: Span) -> Lexeme<'t> {
        self.last_end = span.end;
        self.comma = (token == Token::Comma).then_some(span.start);
        Lexeme {
            token,
            span,
            joined: self.joined,
        }
    }

    fn end(&mut self, token: Token<'t>) -> Lexeme<'t> {
        let at = Span {
            start: self.last_end,
            end: self.last_end,
        };
        self.lexeme(token, at)
    }

    fn line_end(&mut self) -> Lexeme<'t> {
        let lexeme = self.end(Token::LineEnd);
        self.place += 1;
        self.last_end = self.place;
        self.joined = None;
        lexeme
    }
}

const fn is_of_a_run(byte: u8) -> bool {
    byte.is_ascii_alphanumeric() || matches!(byte, b'_' | b'-' | b'.')
}

/// The letters, digits, `_`, `-` and `.` that follow one another at a place.
fn run_at(text: &[u8], place: usize) -> &str {
    let rest = &text[place..];
    let length = rest.iter().position(|byte| !is_of_a_run(*byte));
    let run = &rest[..length.unwrap_or(rest.len())];
    std::str::from_utf8(run).unwrap_or_default()
}

/// Where the next line that is neither empty nor a comment begins to say something; the end of the text where there is none.
fn next_word(text: &[u8], mut place: usize) -> usize {
    let mut is_comment = false;
    while let Some(byte) = text.get(place) {
        match byte {
            b'\n' => is_comment = false,
            b'#' => is_comment = true,
            b' ' | b'\t' | b'\r' => {}
            _ if is_comment => {}
            _ => break,
        }
        place += 1;
    }
    place
}

/// What is wrong at the start of some bytes that are no ASCII signs, and how long it is.
fn bad_at(bytes: &[u8]) -> (Bad, usize) {
    let first = &bytes[..bytes.len().min(4)];
    let valid = match std::str::from_utf8(first) {
        Ok(valid) => valid,
        Err(error) => std::str::from_utf8(&first[..error.valid_up_to()]).unwrap_or_default(),
    };
    match valid.chars().next() {
        None => (Bad::NotUtf8(first[0]), 1),
        Some(sign) => {
            let bad = bad_anywhere(sign).unwrap_or(Bad::OutsideComment(sign));
            (bad, sign.len_utf8())
        }
    }
}

/// What is wrong with a character in comments too.
fn bad_anywhere(sign: char) -> Option<Bad> {
    match sign {
        '\t' => None,
        '\u{202a}'..='\u{202e}' | '\u{2066}'..='\u{2069}' => Some(Bad::Direction(sign)),
        _ => sign.is_control().then_some(Bad::Control(sign)),
    }
}

/// The first thing that may not stand in a comment either: what, where, and how long.
fn first_bad(comment: &[u8]) -> Option<(Bad, usize, usize)> {
    let (valid, end) = match std::str::from_utf8(comment) {
        Ok(valid) => (valid, None),
        Err(error) => {
            let end = error.valid_up_to();
            let valid = std::str::from_utf8(&comment[..end]).unwrap_or_default();
            (valid, Some((Bad::NotUtf8(comment[end]), end, 1)))
        }
    };
    let within = valid.char_indices().find_map(|(at, sign)| {
        let bad = bad_anywhere(sign)?;
        Some((bad, at, sign.len_utf8()))
    });
    within.or(end)
}

#[cfg(test)]
mod tests {
    use super::*;

    fn tokens(text: &[u8]) -> Vec<Token<'_>> {
        let mut lexer = Lexer::new(text);
        let mut tokens = Vec::new();
        while tokens.last() != Some(&Token::FileEnd) {
            tokens.push(lexer.next().token);
        }
        tokens
    }

    use Token::*;

    #[test]
    fn runs_are_words_numbers_or_neither() {
        let expected = [
            Word("a-b.c_1"),
            Number("007"),
            Mixed("0f"),
            Mixed("-5"),
            Sign('/'),
            FileEnd,
        ];
        assert_eq!(tokens(b"a-b.c_1 007 0f -5/"), expected);
    }

    #[test]
    fn a_comma_joins_the_next_line_unless_that_begins_a_clause() {
        let joined = [Word("a"), Comma, Word("b"), LineEnd, Word("c"), FileEnd];
        assert_eq!(tokens(b"a, # why\n\n # what,\r\n b\nc"), joined);
        let apart = [Word("a"), Comma, LineEnd, Word("writers"), FileEnd];
        assert_eq!(tokens(b"a,\nwriters"), apart);
        assert_eq!(tokens(b"a,\n"), [Word("a"), Comma, LineEnd, FileEnd]);
    }

    #[test]
    fn what_is_bad_is_told_once_a_comment() {
        let not_utf8 = Bad(super::Bad::NotUtf8(0xff));
        assert_eq!(tokens(b"# \xff \xff,\n"), [not_utf8, LineEnd, FileEnd]);
        let joined = [Word("a"), Comma, not_utf8, Word("b"), FileEnd];
        assert_eq!(tokens(b"a, # \xff\n b"), joined);
        let control = Bad(super::Bad::Control('\0'));
        assert_eq!(tokens(b"\0"), [control, FileEnd]);
        assert_eq!(tokens("# é\n".as_bytes()), [LineEnd, FileEnd]);
        let letter = Bad(super::Bad::OutsideComment('é'));
        assert_eq!(tokens("é".as_bytes()), [letter, FileEnd]);
        let turned = Bad(super::Bad::Direction('\u{202e}'));
        assert_eq!(tokens("# \u{202e}".as_bytes()), [turned, FileEnd]);
        let cut = Bad(super::Bad::NotUtf8(0xc3));
        assert_eq!(tokens(b"\xc3"), [cut, FileEnd]);
    }

    #[test]
    fn the_end_of_a_line_is_where_its_last_word_ends() {
        let mut lexer = Lexer::new(b"a   # why\n");
        lexer.next();
        let end = lexer.next();
        assert_eq!((end.token, end.span.start), (LineEnd, 1));
    }
}
