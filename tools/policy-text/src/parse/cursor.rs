//! The next words of a text, and what is told where they are not the expected ones.

use std::fmt::Display;

use crate::diagnostic::Diagnostic;
use crate::errors::Errors;
use crate::lex::{Bad, Lexeme, Lexer, Token};
use crate::numbering::Mention;
use crate::span::{line_number, Clause, Span};
use crate::words::{begins_a_line, is_reserved, quoted, NAME_BYTES};

/// The line has an error, which was reported: go on with the next.
#[derive(Debug)]
pub(crate) struct Stop;

pub(crate) type Parsed<T> = Result<T, Stop>;

pub(crate) struct Cursor<'t> {
    lexer: Lexer<'t>,
    pub current: Lexeme<'t>,
    pub following: Lexeme<'t>,
    /// The span of the last word that was taken.
    last: Span,
    pub errors: Errors<'t>,
    /// The form of the line, for notes; empty where it is not known yet.
    form: &'static str,
    /// Where a line has an error, further words that are not expected may only follow from it.
    line_has_error: bool,
}

impl<'t> Cursor<'t> {
    pub fn new(text: &'t [u8], errors: Errors<'t>) -> Cursor<'t> {
        let mut lexer = Lexer::new(text);
        let current = lexer.next();
        let following = lexer.next();
        Cursor {
            lexer,
            current,
            following,
            last: Span::default(),
            errors,
            form: "",
            line_has_error: false,
        }
    }

    /// Begins a line, at its first word: none at the end of the text.
    pub fn begin_line(&mut self) -> Option<()> {
        while self.current.token == Token::LineEnd {
            self.take();
        }
        self.form = "";
        self.line_has_error = false;
        (self.current.token != Token::FileEnd).then_some(())
    }

    /// Passes over what is left of a line.
    pub fn skip_line(&mut self) {
        while !self.is_at_end() {
            self.take();
        }
    }

    pub fn set_form(&mut self, form: &'static str) {
        self.form = form;
    }

    /// From a first word to the last that was taken.
    pub fn since(&self, first: Span) -> Span {
        first.to(self.last)
    }

    pub fn take(&mut self) -> Lexeme<'t> {
        let taken = self.current;
        self.last = taken.span;
        self.current = self.following;
        self.following = self.lexer.next();
        taken
    }

    pub fn is_at_end(&self) -> bool {
        matches!(self.current.token, Token::LineEnd | Token::FileEnd)
    }

    pub fn is_at(&self, word: &str) -> bool {
        self.current.token == Token::Word(word)
    }

    /// Takes a word if it is the next one.
    pub fn takes(&mut self, word: &str) -> bool {
        let is_at = self.is_at(word);
        if is_at {
            self.take();
        }
        is_at
    }

    pub fn takes_token(&mut self, token: Token<'static>) -> bool {
        let is_at = self.current.token == token;
        if is_at {
            self.take();
        }
        is_at
    }

    pub fn word(&mut self, word: &'static str) -> Parsed<()> {
        if self.takes(word) {
            return Ok(());
        }
        self.expected(&quoted(word))
    }

    pub fn token(&mut self, token: Token<'static>, what: &'static str) -> Parsed<()> {
        if self.takes_token(token) {
            return Ok(());
        }
        self.expected(&what)
    }

    pub fn line_end(&mut self) -> Parsed<()> {
        if self.is_at_end() {
            return Ok(());
        }
        let note = match self.current.token {
            Token::Word(word) if begins_a_line(word) => {
                format!("`{word}` begins a line of its own")
            }
            _ => {
                return self.expected_with(&"the end of the line", "the line ends before this", &[])
            }
        };
        self.expected_with(
            &"the end of the line",
            "the line ends before this",
            &[&note],
        )
    }

    /// A name of a kind, as `a host's name` says it.
    pub fn name(&mut self, what: &str) -> Parsed<Mention<'t>> {
        match self.current.token {
            Token::Word(name) if !is_reserved(name) => {
                let span = self.take().span;
                Ok(Mention { name, span })
            }
            Token::Word(word) if is_reserved(word) => {
                let note = format!("`{word}` is a word of the language and no name");
                self.expected_with(&what, format_args!("{what} goes here"), &[&note])
            }
            _ => self.expected(&what),
        }
    }

    /// A name where it is declared, which must not be too long.
    pub fn new_name(&mut self, what: &str) -> Parsed<Mention<'t>> {
        let it = self.name(what)?;
        if it.name.len() <= NAME_BYTES {
            return Ok(it);
        }
        self.report(it.span, |_| {
            let bytes = it.name.len();
            let message = format!("a name has at most {NAME_BYTES} bytes, and this has {bytes}");
            Diagnostic::error(message, it.span, "a shorter name goes here")
        });
        Err(Stop)
    }

    /// A number from 0 to `most`.
    pub fn number(&mut self, most: u32) -> Parsed<Clause<u32>> {
        let small = match self.current.token {
            Token::Number(digits) => digits.parse().ok().filter(|number| *number <= most),
            _ => None,
        };
        match small {
            Some(it) => {
                let span = self.take().span;
                Ok(Clause { it, span })
            }
            None => self.expected(&format_args!("a number from 0 to {most}")),
        }
    }

    /// A number from 0 to 255.
    pub fn byte(&mut self) -> Parsed<u8> {
        let number = self.number(u32::from(u8::MAX))?.it;
        Ok(number as u8)
    }

    pub fn expected<T>(&mut self, what: &dyn Display) -> Parsed<T> {
        self.expected_with(what, format_args!("{what} goes here"), &[])
    }

    /// Reports that the next word is not what goes there.
    pub fn expected_with<T>(
        &mut self,
        what: &dyn Display,
        label: impl Display,
        notes: &[&str],
    ) -> Parsed<T> {
        let (found, form) = (self.current, self.form);
        if !self.line_has_error {
            self.report(found.span, |text| match found.token {
                Token::Bad(bad) => told_of_bad(bad, found.span),
                _ => told_of(what, label, &found)
                    .notes(notes.iter().map(|note| note.to_string()))
                    .notes(notes_on(&found, form, text)),
            });
        }
        Err(Stop)
    }

    /// Notes an error of this line.
    pub fn mark_error(&mut self) {
        self.line_has_error = true;
    }

    pub fn report(&mut self, span: Span, make: impl FnOnce(&[u8]) -> Diagnostic) {
        self.mark_error();
        self.errors.report(span, make);
    }
}

fn told_of(what: &dyn Display, label: impl Display, found: &Lexeme<'_>) -> Diagnostic {
    let message = format!("expected {what}, found {}", described(found.token));
    Diagnostic::error(message, found.span, label.to_string())
}

fn notes_on(found: &Lexeme<'_>, form: &str, text: &[u8]) -> Vec<String> {
    let mut notes = Vec::new();
    if let Some(comma) = found.joined {
        let line = line_number(text, comma);
        notes.push(format!(
            "line {line} ends in a comma, so this line goes on from it"
        ));
    }
    let is_end = matches!(found.token, Token::LineEnd | Token::FileEnd);
    let last = found
        .span
        .start
        .checked_sub(1)
        .and_then(|last| text.get(last));
    if is_end && last == Some(&b',') {
        notes.push(COMMA_LAST.to_string());
    }
    if !form.is_empty() {
        notes.push(format!("the form of the line: {form}"));
    }
    notes
}

const COMMA_LAST: &str =
    "after a comma the next line goes on, unless it begins with a word such as `writers` or `url`";

/// What stands in the text, in words.
fn described(token: Token<'_>) -> String {
    match token {
        Token::Word(run) | Token::Number(run) | Token::Mixed(run) => quoted(run),
        Token::Comma => "`,`".to_string(),
        Token::Equals => "`=`".to_string(),
        Token::Plus => "`+`".to_string(),
        Token::Sign(sign) => format!("`{sign}`"),
        Token::LineEnd => "the end of the line".to_string(),
        Token::FileEnd => "the end of the file".to_string(),
        // It is told of in words of its own.
        Token::Bad(_) => String::new(),
    }
}

fn told_of_bad(bad: Bad, span: Span) -> Diagnostic {
    match bad {
        Bad::NotUtf8(byte) => {
            let message = format!("byte {byte:#04x} is not UTF-8");
            Diagnostic::error(message, span, "not UTF-8").note("the file is to be saved as UTF-8")
        }
        Bad::Control(sign) => {
            let message = format!("control character U+{:04X}", u32::from(sign));
            Diagnostic::error(message, span, "it is to be removed")
        }
        Bad::Direction(sign) => {
            let code = u32::from(sign);
            let message = format!("character U+{code:04X} changes the direction of the text");
            Diagnostic::error(message, span, "it is to be removed")
        }
        Bad::OutsideComment(sign) => {
            let message = format!(
                "found `{sign}` (U+{:04X}) outside a comment",
                u32::from(sign)
            );
            Diagnostic::error(message, span, "only ASCII stands outside comments")
        }
    }
}
