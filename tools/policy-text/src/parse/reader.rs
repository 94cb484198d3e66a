//! The second pass: every line is read, every name resolved.

use super::cursor::{Cursor, Parsed, Stop};
use super::draft::{told_missing, Draft, Page, Section};
use super::{begun, declarations, line_word_near, Header};
use crate::compile::FIRST_RECORD;
use crate::diagnostic::Diagnostic;
use crate::errors::Errors;
use crate::kind::Kind;
use crate::lex::Token;
use crate::numbering::Mention;
use crate::plan::Plan;
use crate::resolve::{told_unknown, Tables, Unknown};
use crate::span::{Clause, Span};
use crate::words::{is_reserved, quoted};

const GOES_ON: &str = "a line goes on in the next only where it ends in a comma";

pub(crate) struct Reader<'t> {
    pub cursor: Cursor<'t>,
    /// All that the text declares.
    pub known: Tables<'t>,
    /// What it has declared so far.
    so_far: Tables<'t>,
    pub unknown: Unknown<'t>,
    pub draft: Draft<'t>,
    pub plan: Plan,
    session: Option<Span>,
    /// What walk would read so far; none once it is told that it is too much.
    pub bytes: Option<usize>,
}

pub(crate) fn read<'t>(text: &'t [u8], known: Tables<'t>) -> Result<Plan, Vec<Diagnostic>> {
    let mut reader = Reader {
        cursor: Cursor::new(text, Errors::new(text)),
        known,
        so_far: Tables::default(),
        unknown: Unknown::default(),
        draft: Draft::new(Section::None, Span::default()),
        plan: Plan::new(),
        session: None,
        bytes: Some(FIRST_RECORD),
    };
    while reader.cursor.begin_line().is_some() {
        if reader.line().is_err() {
            reader.draft.has_error = true;
        }
        reader.cursor.skip_line();
    }
    reader.open(Draft::new(Section::None, Span::default()));
    let errors = reader.cursor.errors.told();
    if errors.is_empty() {
        Ok(reader.plan)
    } else {
        Err(errors)
    }
}

impl<'t> Reader<'t> {
    fn line(&mut self) -> Parsed<()> {
        let first = self.cursor.current;
        let Token::Word(word) = first.token else {
            let label = "a line begins with a word such as `host`, `url` or `readers`";
            return self.cursor.expected_with(&"a clause", label, &[]);
        };
        if self.cursor.following.token == Token::Equals {
            return self.step("", first.span);
        }
        match (word, self.draft.section) {
            ("script", _) if self.cursor.following.token == Token::Word("readers") => {
                self.clause("script readers")
            }
            ("host" | "cookie" | "url" | "connection" | "script", _) => self.declaration(),
            ("session", _) => self.session(),
            ("readers" | "writers" | "partner" | "registers", _) => self.clause(word),
            ("picture", Section::Session) => self.record(word, first.span),
            ("read" | "write" | "request" | "skip" | "picture" | "end" | "step", _) => {
                self.step(word, first.span)
            }
            ("load" | "response" | "redirect" | "record", _) => self.record(word, first.span),
            _ => self.no_line(word),
        }
    }

    /// A line that begins with no word that a line begins with.
    fn no_line(&mut self, word: &'t str) -> Parsed<()> {
        let near = line_word_near(word);
        let label = match near {
            Some(near) => format!("did you mean `{near}`?"),
            None => "a line begins with a word such as `host`, `url` or `readers`".to_string(),
        };
        let host = self.known.find(Kind::Host, word);
        let is_of_a_set = host.is_some() || is_reserved(word);
        let notes: &[_] = if is_of_a_set { &[GOES_ON] } else { &[] };
        let stop = self.cursor.expected_with(&"a clause", label, notes);
        let is_in_list = matches!(
            self.draft.section,
            Section::Session | Section::Declaration(Kind::Script)
        );
        let begins = begun(&self.cursor).map(|begun| Section::Declaration(begun.it));
        let unclear = (near.is_none() && !is_in_list).then_some(Section::Unclear);
        if let Some(section) = begins.or(unclear) {
            let mut draft = Draft::new(section, self.cursor.current.span);
            draft.cookies_of = Page::Unclear;
            draft.has_error = true;
            // What this line was meant for may be a clause of the declaration that it ends.
            self.draft.has_error = true;
            self.open(draft);
        }
        stop
    }

    fn declaration(&mut self) -> Parsed<()> {
        let Some(begun) = begun(&self.cursor) else {
            return Err(Stop);
        };
        let header = declarations::header(&mut self.cursor, begun.it);
        let number = self.so_far.declare(&header, &mut self.cursor.errors);
        let mut draft = Draft::of(&header, number);
        if let Some(host) = header.host {
            draft.host = self.find(Kind::Host, host, &[]);
        }
        if header.kind == Kind::Script {
            (draft.page, draft.cookies_of) = self.page(&header);
        }
        self.open(draft);
        Ok(())
    }

    fn page(&mut self, header: &Header<'t>) -> (Option<Clause<u32>>, Page<'t>) {
        let Some(page) = header.page else {
            let is_unsaid = header.is_whole;
            return (
                None,
                if is_unsaid {
                    Page::Unsaid
                } else {
                    Page::Unclear
                },
            );
        };
        let it = self.find(Kind::Url, page, &[]);
        let span = page.span;
        let host = self.known.host_of_url(page.name);
        (
            Some(Clause { it, span }),
            host.map_or(Page::Unclear, Page::Of),
        )
    }

    fn session(&mut self) -> Parsed<()> {
        self.cursor.set_form("session");
        let span = self.cursor.take().span;
        let mut draft = Draft::new(Section::Session, span);
        match self.session {
            None => draft.number = Some(0),
            Some(other) => self.cursor.report(span, |text| {
                let note = format!("the other is in {}", Errors::line(text, other));
                let message = "there is a second `session`".to_string();
                Diagnostic::error(message, span, "a file has one at most").note(note)
            }),
        }
        self.session = self.session.or(Some(span));
        self.open(draft);
        self.cursor.line_end()
    }

    /// Ends the declaration that was being read, and begins another.
    fn open(&mut self, next: Draft<'t>) {
        let done = std::mem::replace(&mut self.draft, next);
        let missing = done.missing();
        if !missing.is_empty() {
            let what = done.described();
            let errors = &mut self.cursor.errors;
            errors.report(done.span, |_| told_missing(&what, done.span, &missing));
        }
        done.enter(&mut self.plan);
    }

    /// The number of a name; 0 where there is none, which is told. `words` could stand in its place.
    pub fn find(&mut self, kind: Kind, it: Mention<'t>, words: &[&str]) -> u32 {
        match self.known.find(kind, it.name) {
            Some(declared) => declared.number.unwrap_or(0),
            None => {
                // Where a word of the language is meant, what follows need not be what follows a name.
                if !words.is_empty() {
                    self.cursor.mark_error();
                }
                if self.unknown.is_new(kind, it.name, "") {
                    let (known, errors) = (&self.known, &mut self.cursor.errors);
                    errors.report(it.span, |text| told_unknown(known, kind, it, words, text));
                }
                0
            }
        }
    }

    /// Takes a name and gives its number.
    pub fn named(&mut self, kind: Kind) -> Parsed<(Mention<'t>, u8)> {
        let it = self.cursor.name(declarations::name_of(kind))?;
        let number = self.find(kind, it, &[]);
        Ok((it, number as u8))
    }

    /// Reports a line that does not belong where it stands, once for each `owner` that it belongs to.
    pub fn stray(&mut self, word: &str, span: Span, owner: &'static str, note: &str) -> Parsed<()> {
        let is_told = self.draft.stray.replace(owner) == Some(owner);
        if !is_told && !self.draft.is_unclear() {
            let draft = &self.draft;
            self.cursor.report(span, |text| {
                told_stray(draft, word, span, owner, text).note(note)
            });
        }
        Err(Stop)
    }
}

fn told_stray(draft: &Draft<'_>, word: &str, span: Span, owner: &str, text: &[u8]) -> Diagnostic {
    let message = format!("{} belongs to {owner}", quoted(word));
    if draft.section == Section::None {
        return Diagnostic::error(message, span, "nothing is declared before it");
    }
    let here = draft.described();
    let line = Errors::line(text, draft.span);
    let label = format!("here it would belong to {here}");
    Diagnostic::error(message, span, label).note(format!("{here} begins in {line}"))
}
