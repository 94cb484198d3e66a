//! Clauses of declarations: readers, script readers, writers, partner, registers.

use zolherima::REGISTERS;

use super::cursor::{Parsed, Stop};
use super::draft::{Section, REGISTER_NAMES};
use super::reader::Reader;
use crate::diagnostic::Diagnostic;
use crate::errors::Errors;
use crate::kind::Kind;
use crate::lex::Token;
use crate::numbering::Mention;
use crate::span::{Clause, Span};
use crate::words::quoted;

impl<'t> Reader<'t> {
    /// Reads a clause, at its first word.
    pub fn clause(&mut self, word: &str) -> Parsed<()> {
        let first = self.cursor.current.span;
        let (form, owner, owners): (_, _, &[Kind]) = match word {
            "partner" => ("partner URL", "a URL", &[Kind::Url]),
            "registers" => ("registers NAME, ..", "a script", &[Kind::Script]),
            "script readers" => (SCRIPT_READERS, "a connection", &[Kind::Connection]),
            "writers" => (WRITERS, LABELLED, LABELLED_KINDS),
            _ => (READERS, LABELLED, LABELLED_KINDS),
        };
        self.cursor.set_form(form);
        self.cursor.take();
        if word == "script readers" {
            self.cursor.take();
        }
        let span = self.cursor.since(first);
        match self.draft.section {
            Section::Declaration(kind) if owners.contains(&kind) => {}
            _ => {
                let note = format!("a line `{} NAME ..` begins one", owners[0].word());
                return self.stray(word, span, owner, &note);
            }
        }
        self.at_most_once(word, span)?;
        match word {
            "partner" => self.partner(first),
            "registers" => self.registers(first),
            _ => self.labels(word, first),
        }
    }

    fn at_most_once(&mut self, word: &str, span: Span) -> Parsed<()> {
        let draft = &self.draft;
        let other = match word {
            "readers" => draft.readers.map(|it| it.span),
            "script readers" => draft.script_readers.map(|it| it.span),
            "writers" => draft.writers.map(|it| it.span),
            "partner" => draft.partner.map(|it| it.span),
            _ => draft.registers,
        };
        let Some(other) = other else {
            return Ok(());
        };
        self.cursor.report(span, |text| {
            let message = format!("{} has `{word}` twice", draft.described());
            let note = format!("the other is in {}", Errors::line(text, other));
            Diagnostic::error(message, span, "a second time here").note(note)
        });
        Err(Stop)
    }

    fn labels(&mut self, word: &str, first: Span) -> Parsed<()> {
        let it = self.set()?;
        self.cursor.line_end()?;
        let span = self.cursor.since(first);
        let clause = Some(Clause { it, span });
        match word {
            "readers" => self.draft.readers = clause,
            "writers" => self.draft.writers = clause,
            _ => self.draft.script_readers = clause,
        }
        Ok(())
    }

    fn partner(&mut self, first: Span) -> Parsed<()> {
        let (_, number) = self.named(Kind::Url)?;
        self.cursor.line_end()?;
        let span = self.cursor.since(first);
        let it = u32::from(number);
        self.draft.partner = Some(Clause { it, span });
        Ok(())
    }

    fn registers(&mut self, first: Span) -> Parsed<()> {
        if !self.draft.steps.is_empty() {
            let message = "`registers` goes before the steps".to_string();
            let label = "a step stands before it";
            self.cursor
                .report(first, |_| Diagnostic::error(message, first, label));
            return Err(Stop);
        }
        self.draft.registers = Some(first);
        let mut place = 0;
        loop {
            let name = self.cursor.new_name("a register's name")?;
            self.register(place, name)?;
            place += 1;
            if !self.cursor.takes_token(Token::Comma) {
                break;
            }
        }
        self.cursor.line_end()
    }

    /// Names the register of a place.
    fn register(&mut self, place: usize, it: Mention<'t>) -> Parsed<()> {
        let (is_over, names) = (place >= REGISTERS, &self.draft.register_names);
        let other = names.iter().position(|name| *name == it.name);
        let other = other.filter(|other| *other != place);
        // A name such as r1 stays that of its place, also where that is named later.
        let own = REGISTER_NAMES.iter().position(|name| *name == it.name);
        let other = other.or(own.filter(|own| *own != place));
        if !is_over && other.is_none() {
            self.draft.register_names[place] = it.name;
            return Ok(());
        }
        self.cursor.report(it.span, |_| {
            let message = match other {
                Some(other) if !is_over => {
                    format!("{} is the name of register {other}", quoted(it.name))
                }
                _ => format!("a script has {REGISTERS} registers"),
            };
            Diagnostic::error(message, it.span, format!("this would be register {place}"))
        });
        Err(Stop)
    }
}

const READERS: &str = "readers everyone | nobody | [everyone except] [http|https] HOST, ..";
const SCRIPT_READERS: &str =
    "script readers everyone | nobody | [everyone except] [http|https] HOST, ..";
const WRITERS: &str = "writers everyone | nobody | [everyone except] [http|https] HOST, ..";
const LABELLED: &str = "a cookie, a URL or a connection";
const LABELLED_KINDS: &[Kind] = &[Kind::Url, Kind::Cookie, Kind::Connection];
