//! Records of the session.

use zolherima::{Cookies, Record};

use super::cursor::{Parsed, Stop};
use super::draft::{Page, Section};
use super::reader::Reader;
use crate::compile::{FIRST_RECORD, WALK_BYTES};
use crate::diagnostic::Diagnostic;
use crate::kind::Kind;
use crate::lex::Token;
use crate::numbering::Mention;
use crate::plan::RecordLine;
use crate::span::{Clause, Span};

/// The most bytes of a record: its length is a byte.
const RECORD_BYTES: usize = u8::MAX as usize;

impl<'t> Reader<'t> {
    /// Reads a record, at its first word.
    pub fn record(&mut self, word: &'t str, first: Span) -> Parsed<()> {
        self.cursor.set_form(match word {
            "load" => "load URL on CONNECTION",
            "response" => "response URL on CONNECTION runs SCRIPT|gives N [sets COOKIE = N, ..]",
            "picture" => "picture URL on CONNECTION [sets COOKIE = N, ..]",
            "redirect" => "redirect URL on CONNECTION to URL [sets COOKIE = N, ..]",
            _ => "record HH HH ..",
        });
        if self.draft.section != Section::Session {
            let note = "a line `session` begins it";
            return self.stray(word, first, "a session", note);
        }
        self.cursor.take();
        let bytes = match word {
            "load" => self.load()?.to_vec(),
            "response" => self.response()?.to_vec(),
            "picture" => self.picture_response()?.to_vec(),
            "redirect" => self.redirect()?.to_vec(),
            _ => self.plain_bytes()?,
        };
        self.cursor.line_end()?;
        let it = RecordLine { bytes };
        let span = self.cursor.since(first);
        self.push_record(Clause { it, span })
    }

    /// What walk could not read is told once, and records from there on are not kept.
    fn push_record(&mut self, record: Clause<RecordLine>) -> Parsed<()> {
        let (Some(before), Some(_)) = (self.bytes, self.draft.number) else {
            return Ok(());
        };
        let bytes = before + 1 + record.it.bytes.len();
        if bytes <= WALK_BYTES {
            self.bytes = Some(bytes);
            self.plan.session.push(record);
            return Ok(());
        }
        self.bytes = None;
        self.cursor.report(record.span, |_| {
            let most = WALK_BYTES - FIRST_RECORD;
            let message = format!("the session is too long: {most} bytes are the most");
            let label = "the first record that does not fit";
            Diagnostic::error(message, record.span, label)
                .note("each record takes a byte more than it has")
        });
        Ok(())
    }

    fn load(&mut self) -> Parsed<Record> {
        let ((_, url), connection) = self.url_on_connection()?;
        Ok(Record::load(url, connection))
    }

    fn response(&mut self) -> Parsed<Record> {
        let ((name, url), connection) = self.url_on_connection()?;
        if self.cursor.takes("runs") {
            let (_, script) = self.named(Kind::Script)?;
            let cookies = self.cookies(name)?;
            return Ok(Record::document_response(url, connection, &cookies, script));
        }
        if !self.cursor.takes("gives") {
            return self.cursor.expected(&"`runs` or `gives`");
        }
        let value = self.cursor.number(u32::MAX)?.it;
        let cookies = self.cookies(name)?;
        Ok(Record::script_response(url, connection, &cookies, value))
    }

    fn picture_response(&mut self) -> Parsed<Record> {
        let ((name, url), connection) = self.url_on_connection()?;
        let cookies = self.cookies(name)?;
        Ok(Record::picture_response(url, connection, &cookies))
    }

    fn redirect(&mut self) -> Parsed<Record> {
        let ((name, url), connection) = self.url_on_connection()?;
        self.cursor.word("to")?;
        let (_, target) = self.named(Kind::Url)?;
        let cookies = self.cookies(name)?;
        Ok(Record::redirect(url, connection, &cookies, target))
    }

    /// `[sets COOKIE = N, ..]`, of the host of a URL.
    fn cookies(&mut self, url: Mention<'t>) -> Parsed<Cookies> {
        let mut cookies = Cookies::NONE;
        if !self.cursor.takes("sets") {
            return Ok(cookies);
        }
        let host = self.known.host_of_url(url.name);
        let of = host.map_or(Page::Unclear, Page::Of);
        loop {
            cookies = self.cookie_set(of, cookies)?;
            if !self.cursor.takes_token(Token::Comma) {
                return Ok(cookies);
            }
        }
    }

    fn cookie_set(&mut self, of: Page<'t>, cookies: Cookies) -> Parsed<Cookies> {
        let first = self.cursor.current.span;
        let key = self.cookie(of)?;
        let span = self.cursor.since(first);
        self.cursor.token(Token::Equals, "`=`")?;
        let value = self.cursor.number(u32::MAX)?.it;
        let Some(key) = key.map(u32::from) else {
            return Ok(cookies);
        };
        if cookies.get(key).is_some() {
            let message = "the record sets this cookie twice".to_string();
            self.cursor.report(span, |_| {
                Diagnostic::error(message, span, format!("key {key}"))
            });
            return Err(Stop);
        }
        cookies.with(key, value).ok_or(Stop)
    }

    fn plain_bytes(&mut self) -> Parsed<Vec<u8>> {
        let mut bytes = Vec::new();
        while !self.cursor.is_at_end() {
            let byte = self.hexadecimal()?;
            if bytes.len() == RECORD_BYTES {
                let label = "the record ends before this";
                return self.cursor.expected_with(
                    &format_args!("at most {RECORD_BYTES} bytes"),
                    label,
                    &[],
                );
            }
            bytes.push(byte);
            self.cursor.take();
        }
        Ok(bytes)
    }

    fn hexadecimal(&mut self) -> Parsed<u8> {
        let byte = match self.cursor.current.token {
            Token::Word(run) | Token::Number(run) | Token::Mixed(run) if run.len() == 2 => {
                u8::from_str_radix(run, 16).ok()
            }
            _ => None,
        };
        match byte {
            Some(byte) => Ok(byte),
            None => self.cursor.expected(&"a byte of two hexadecimal digits"),
        }
    }
}
