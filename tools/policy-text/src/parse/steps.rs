//! Steps of scripts.

use zolherima::{Step, KEYS, STEPS, STEP_BYTES};

use super::cursor::{Parsed, Stop};
use super::draft::{Page, Section, REGISTER_NAMES};
use super::reader::Reader;
use crate::diagnostic::Diagnostic;
use crate::kind::Kind;
use crate::lex::Token;
use crate::nearest::nearest;
use crate::numbering::Mention;
use crate::resolve::told_unknown_cookie;
use crate::span::{Clause, Span};
use crate::words::quoted;

impl<'t> Reader<'t> {
    /// Reads a step, at its first word; `word` is empty where that is a register.
    pub fn step(&mut self, word: &'t str, first: Span) -> Parsed<()> {
        self.cursor.set_form(match word {
            "read" => "read COOKIE into REGISTER",
            "write" => "write REGISTER to COOKIE",
            "request" => "request URL on CONNECTION then SCRIPT",
            "skip" => "skip N if REGISTER is 0",
            "picture" => "picture URL on CONNECTION",
            "end" => "end",
            "step" => "step OP A B C",
            _ => "REGISTER = NUMBER, or REGISTER = REGISTER + REGISTER",
        });
        if self.draft.section != Section::Declaration(Kind::Script) {
            let words = match self.cursor.current.token {
                Token::Word(register) if word.is_empty() => format!("{register} ="),
                _ => word.to_string(),
            };
            let note = "a line `script NAME ..` begins one";
            return self.stray(&words, first, "a script", note);
        }
        let bytes = self.step_bytes(word)?;
        self.cursor.line_end()?;
        let it = bytes;
        let span = self.cursor.since(first);
        self.push_step(Clause { it, span })
    }

    fn step_bytes(&mut self, word: &str) -> Parsed<[u8; STEP_BYTES]> {
        if !word.is_empty() {
            self.cursor.take();
        }
        Ok(match word {
            "read" => self.read()?.bytes(),
            "write" => self.write()?.bytes(),
            "request" => self.request()?.bytes(),
            "skip" => self.skip()?.bytes(),
            "picture" => self.picture()?.bytes(),
            "end" => Step::End.bytes(),
            "step" => {
                let cursor = &mut self.cursor;
                [
                    cursor.byte()?,
                    cursor.byte()?,
                    cursor.byte()?,
                    cursor.byte()?,
                ]
            }
            _ => self.assignment()?.bytes(),
        })
    }

    /// Steps past the last one are told once, and not kept.
    fn push_step(&mut self, step: Clause<[u8; STEP_BYTES]>) -> Parsed<()> {
        if self.draft.steps.len() == STEPS {
            let draft = &self.draft;
            self.cursor.report(step.span, |_| {
                let message = format!("{} has more than {STEPS} steps", draft.described());
                Diagnostic::error(message, step.span, format!("step {}", STEPS + 1))
            });
        }
        if self.draft.steps.len() <= STEPS {
            self.draft.steps.push(step);
        }
        Ok(())
    }

    fn assignment(&mut self) -> Parsed<Step> {
        let register = self.register_used()?;
        self.cursor.token(Token::Equals, "`=`")?;
        if let Token::Number(_) = self.cursor.current.token {
            let value = self.cursor.number(u32::from(u16::MAX))?.it as u16;
            return Ok(Step::Set { register, value });
        }
        let left = self.register_or("a number or a register")?;
        self.cursor.token(Token::Plus, "`+`")?;
        let right = self.register_used()?;
        Ok(Step::Add {
            register,
            left,
            right,
        })
    }

    fn read(&mut self) -> Parsed<Step> {
        let key = self.cookie(self.draft.cookies_of)?.unwrap_or(0);
        self.cursor.word("into")?;
        let register = self.register_used()?;
        Ok(Step::Read { register, key })
    }

    fn write(&mut self) -> Parsed<Step> {
        let register = self.register_used()?;
        self.cursor.word("to")?;
        let key = self.cookie(self.draft.cookies_of)?.unwrap_or(0);
        Ok(Step::Write { key, register })
    }

    fn request(&mut self) -> Parsed<Step> {
        let (url, connection) = self.url_on_connection()?;
        self.cursor.word("then")?;
        let (_, handler) = self.named(Kind::Script)?;
        let url = url.1;
        Ok(Step::Request {
            url,
            connection,
            handler,
        })
    }

    fn skip(&mut self) -> Parsed<Step> {
        let steps = self.cursor.byte()?;
        self.cursor.word("if")?;
        let register = self.register_used()?;
        self.cursor.word("is")?;
        if self.cursor.current.token != Token::Number("0") {
            return self.cursor.expected(&"`0`");
        }
        self.cursor.take();
        Ok(Step::SkipIfZero { register, steps })
    }

    fn picture(&mut self) -> Parsed<Step> {
        let (url, connection) = self.url_on_connection()?;
        let url = url.1;
        Ok(Step::Picture { url, connection })
    }

    /// `URL on CONNECTION`, of steps and of records.
    pub fn url_on_connection(&mut self) -> Parsed<((Mention<'t>, u8), u8)> {
        let url = self.named(Kind::Url)?;
        self.cursor.word("on")?;
        let (_, connection) = self.named(Kind::Connection)?;
        Ok((url, connection))
    }

    fn register_used(&mut self) -> Parsed<u8> {
        self.register_or("a register")
    }

    fn register_or(&mut self, what: &str) -> Parsed<u8> {
        let it = self.cursor.name(what)?;
        let names = self.draft.register_names;
        if let Some(place) = names.iter().position(|name| *name == it.name) {
            return Ok(place as u8);
        }
        // A clause `registers` that could not be read may have named it.
        if self.draft.registers.is_some() && self.draft.has_error {
            return Ok(0);
        }
        let draft = &self.draft;
        self.cursor.report(it.span, |_| {
            let message = format!("{} has no register {}", draft.described(), quoted(it.name));
            let renamed = REGISTER_NAMES.iter().position(|name| *name == it.name);
            let note = match renamed {
                Some(place) => Some(format!("register {place} is `{}` here", names[place])),
                None => nearest(it.name, names.into_iter())
                    .map(|meant| format!("did you mean `{meant}`?")),
            };
            Diagnostic::error(message, it.span, "not a register")
                .notes(note)
                .note(format!("its registers are {}", names.join(", ")))
        });
        Ok(0)
    }

    /// A cookie's key, by its name or as `key N`; none where the name has none, which is told.
    pub fn cookie(&mut self, of: Page<'t>) -> Parsed<Option<u8>> {
        if self.cursor.takes("key") {
            let key = self.cursor.number(KEYS as u32 - 1)?.it;
            return Ok(Some(key as u8));
        }
        let it = self.cursor.name("a cookie's name, or `key` and a number")?;
        match of {
            Page::Unclear => Ok(None),
            Page::Of(host) => Ok(self.cookie_of(host, it)),
            Page::Unsaid => {
                let draft = &self.draft;
                self.cursor.report(it.span, |_| {
                    let message = format!("of which host is {}?", quoted(it.name));
                    let label = format!("{} does not say its page", draft.described());
                    Diagnostic::error(message, it.span, label).note(format!(
                        "to say it: `script {} for URL`; or write `key N`",
                        draft.name
                    ))
                });
                Err(Stop)
            }
        }
    }

    fn cookie_of(&mut self, host: &'t str, it: Mention<'t>) -> Option<u8> {
        let roll = self.known.roll(Kind::Cookie, host);
        if let Some(declared) = roll.and_then(|roll| roll.find(it.name)) {
            return declared.number.map(|key| key as u8);
        }
        // Where the host is not declared, that is told.
        let is_host = self.known.find(Kind::Host, host).is_some();
        if is_host && self.unknown.is_new(Kind::Cookie, it.name, host) {
            let (known, errors) = (&self.known, &mut self.cursor.errors);
            errors.report(it.span, |_| told_unknown_cookie(known, it, host));
        }
        None
    }
}
