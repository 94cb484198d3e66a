//! The interpreter of scripts.

use crate::entry::{self, Asked};
use crate::kind::ConnectionKind;
use crate::layout::*;
use crate::policy::{ConnectionTag, Policy, Url};
use crate::request::write_request;
use crate::request_step::{RequestStep, PICTURE, SEND};
use crate::rules::Rules;
use crate::seen::{Event, Seen};
use crate::state::{Pending, State};

/// One script at work.
pub struct Interpreter<'a> {
    pub rules: &'a dyn Rules,
    pub policy: &'a Policy,
    pub state: &'a mut State,
    pub output: &'a mut Vec<u8>,
    pub seen: &'a mut Seen,
    /// The URL whose host's cookies the script works on.
    pub page: usize,
    /// Whether it is a handler and not a document's script: for the events
    /// alone.
    pub is_handler: bool,
    /// The connection that the response came on.
    pub connection: usize,
    pub registers: [u32; REGISTERS],
}

/// The script ends here; the event says why.
#[derive(Clone, Copy)]
struct End(Event);

/// What a step that sends a request names.
#[derive(Clone, Copy)]
struct Named {
    /// The row of the step's number, and the URL after the replacement.
    row: usize,
    url: usize,
    connection: usize,
}

/// How many of the steps that follow are skipped, or the end.
type Outcome = Result<usize, End>;

/// The number if it is below the limit, else the end.
fn below(limit: usize, number: usize, event: Event) -> Result<usize, End> {
    match number < limit {
        true => Ok(number),
        false => Err(End(event)),
    }
}

/// Goes on only if allowed.
fn require(allowed: bool, event: Event) -> Result<(), End> {
    match allowed {
        true => Ok(()),
        false => Err(End(event)),
    }
}

impl Interpreter<'_> {
    /// Runs the script and counts every step met, the ending one included.
    pub fn run(&mut self, script: &[u8]) -> u32 {
        let mut steps = 0;
        let mut next = 0;
        let mut skipped = 0;
        while next < STEPS {
            let place = STEP_BYTES * next;
            steps += 1;
            match self.step(&script[place..place + STEP_BYTES]) {
                Ok(skip) => skipped = skip,
                Err(End(event)) => {
                    self.seen.note(event);
                    return steps;
                }
            }
            next += 1 + skipped;
        }
        self.seen.note(match skipped {
            0 => Event::EndRunsPast,
            _ => Event::EndSkipsPast,
        });
        steps
    }

    /// One step: op, a, b, c.
    fn step(&mut self, step: &[u8]) -> Outcome {
        let [a, b, c] = [step[1], step[2], step[3]].map(usize::from);
        match step[0] {
            OP_END => Err(End(Event::EndStep)),
            OP_SET => self.set(a, b, c),
            OP_ADD => self.add(a, b, c),
            OP_READ => self.read(a, b),
            OP_WRITE => self.write(a, b),
            OP_SEND => self.send(a, b, c),
            OP_SKIP => self.skip(a, b),
            OP_PICTURE => self.picture(a, b, c),
            _ => Err(End(Event::EndUnknown)),
        }
    }

    /// Register a = 256 × b + c.
    fn set(&mut self, a: usize, b: usize, c: usize) -> Outcome {
        let a = below(REGISTERS, a, Event::EndSetRegister)?;
        self.registers[a] = (256 * b + c) as u32;
        self.seen.note(Event::StepSet);
        Ok(0)
    }

    /// Register a = register b + register c, wrapping.
    fn add(&mut self, a: usize, b: usize, c: usize) -> Outcome {
        let a = below(REGISTERS, a, Event::EndAddTarget)?;
        let b = below(REGISTERS, b, Event::EndAddLeft)?;
        let c = below(REGISTERS, c, Event::EndAddRight)?;
        let (sum, wraps) = self.registers[b].overflowing_add(self.registers[c]);
        self.registers[a] = sum;
        self.seen.note(match wraps {
            true => Event::StepAddWraps,
            false => Event::StepAdd,
        });
        Ok(0)
    }

    /// Register a = the page host's cookie b, allowed if the script readers
    /// are within its readers and its writers within the connection's.
    fn read(&mut self, a: usize, b: usize) -> Outcome {
        let a = below(REGISTERS, a, Event::EndReadRegister)?;
        let b = below(KEYS, b, Event::EndReadKey)?;
        let own = self.own();
        let cookie = self.policy.cookie(self.host(), b);
        require(self.rules.read_readers(own, cookie), Event::EndReadReaders)?;
        require(self.rules.read_writers(own, cookie), Event::EndReadWriters)?;
        let value = self.state.cookie(self.host(), b);
        self.registers[a] = value.ok_or(End(Event::EndReadAbsent))?;
        self.seen.note(Event::StepRead);
        self.note_entry_page(Event::StepReadEntry);
        Ok(0)
    }

    /// The page host's cookie a = register b, stored if its readers are
    /// within the script readers and the connection's writers within its
    /// writers. A write not allowed changes nothing.
    fn write(&mut self, a: usize, b: usize) -> Outcome {
        let a = below(KEYS, a, Event::EndWriteKey)?;
        let b = below(REGISTERS, b, Event::EndWriteRegister)?;
        let own = self.own();
        let cookie = self.policy.cookie(self.host(), a);
        if !self.rules.write_readers(own, cookie) {
            self.seen.note(Event::StepWriteReaders);
        } else if !self.rules.write_writers(own, cookie) {
            self.seen.note(Event::StepWriteWriters);
        } else {
            self.state.store(self.host(), a, self.registers[b]);
            self.seen.note(Event::StepWrite);
            self.note_entry_page(Event::StepWriteEntry);
        }
        Ok(0)
    }

    /// Request URL a on connection b with handler c: opens b for a script,
    /// with the page as origin.
    fn send(&mut self, a: usize, b: usize, c: usize) -> Outcome {
        let named = self.named(a, b, &SEND)?;
        let handler = below(SCRIPTS, c, Event::EndSendHandler)?;
        self.check_labels(named, &SEND)?;
        let pending = Pending {
            kind: ConnectionKind::Script,
            url: named.url,
            origin: self.page,
            handler,
        };
        self.request(named, pending, &SEND);
        self.seen.note(Event::StepSend);
        self.note_page();
        if self.output.len() == OUTPUT_BYTES {
            self.seen.note(Event::FullOutput);
        }
        Ok(0)
    }

    /// Request a picture of URL a on connection b. What c holds is ignored.
    fn picture(&mut self, a: usize, b: usize, c: usize) -> Outcome {
        let named = self.named(a, b, &PICTURE)?;
        self.check_labels(named, &PICTURE)?;
        let pending = Pending::unhandled(ConnectionKind::Picture, named.url);
        let carries = self.request(named, pending, &PICTURE);
        self.seen.note(match carries {
            false => Event::StepPicture,
            true => Event::StepPictureCookies,
        });
        if c >= SCRIPTS {
            self.seen.note(Event::StepPictureUnused);
        }
        Ok(0)
    }

    /// URL a replaced by its https partner, where it has a row and there is a
    /// connection b too.
    fn named(&self, a: usize, b: usize, step: &RequestStep) -> Result<Named, End> {
        let row = below(URLS, a, step.url_above)?;
        let url = self.policy.upgraded(row);
        self.policy.url(url).ok_or(End(step.url_empty))?;
        let connection = below(CONNECTIONS, b, step.connection)?;
        Ok(Named {
            row,
            url,
            connection,
        })
    }

    /// Whether labels allow it, and what they say of the row itself where
    /// that was replaced.
    fn check_labels(&mut self, named: Named, step: &RequestStep) -> Result<(), End> {
        let checked = self.check_request(named.connection, named.url, step);
        let clause = |End(event)| event;
        if named.url != named.row {
            let row = self.check_request(named.connection, named.row, step);
            step.upgrade
                .note(checked.map_err(clause), row.map_err(clause), self.seen);
        }
        let asked = Asked {
            url: *self.url(named.url),
            named: *self.url(named.row),
            from: *self.url(self.page),
            writers: self.own().writers,
        };
        step.entry.note(&asked, checked.map_err(clause), self.seen);
        checked
    }

    /// A request is allowed if: the URL's event endpoint is in the script
    /// readers; the other connection's readers are within the script readers;
    /// that connection fits the URL; the own writers are within that
    /// connection's writers, and the URL admits them.
    fn check_request(&self, connection: usize, url: usize, step: &RequestStep) -> Result<(), End> {
        let url = self.url(url);
        let own = self.own();
        let other = self.policy.connection(connection);
        let rules = self.rules;
        require(rules.send_event(own, url), step.event)?;
        require(rules.send_readers(own, other), step.readers)?;
        require(rules.fit_readers(other, url).is_empty(), step.fit_readers)?;
        require(other.writers_fit(url), step.fit_writers)?;
        require(rules.send_writers(own, other), step.writers)?;
        require(rules.send_url_writers(own, url), step.url_writers)
    }

    /// Opens a connection, replacing what was there, and sends its request;
    /// whether that carries cookies.
    fn request(&mut self, named: Named, pending: Pending, step: &RequestStep) -> bool {
        let Named {
            row,
            url,
            connection,
        } = named;
        self.note_opened(connection, step);
        self.state.pending[connection] = Some(pending);
        let carried = write_request(
            self.rules,
            self.policy,
            self.state,
            connection,
            self.output,
            self.seen,
        );
        let host = self.url(url).host();
        if carried.iter().any(|&(key, _)| !self.reads(host, key)) {
            self.seen.note(step.unreadable);
        }
        if url != row {
            let upgrade = &step.upgrade;
            upgrade.note_cookies(self.policy, self.state, [url, row], self.seen);
        }
        !carried.is_empty()
    }

    /// If register a is 0, skip the b steps that follow.
    fn skip(&mut self, a: usize, b: usize) -> Outcome {
        let a = below(REGISTERS, a, Event::EndSkipRegister)?;
        if self.registers[a] == 0 {
            self.seen.note(Event::StepSkips);
            Ok(b)
        } else {
            self.seen.note(Event::StepSkipsNot);
            Ok(0)
        }
    }

    /// Whether the script may read a cookie.
    fn reads(&self, host: usize, key: usize) -> bool {
        let cookie = self.policy.cookie(host, key);
        self.own().script_readers.within(cookie.readers)
            && cookie.writers.within(self.own().writers)
    }

    /// The tag of the connection that the response came on.
    fn own(&self) -> &ConnectionTag {
        self.policy.connection(self.connection)
    }

    /// The page's host.
    fn host(&self) -> usize {
        self.url(self.page).host()
    }

    /// A URL that was checked.
    fn url(&self, number: usize) -> &Url {
        self.policy.known_url(number)
    }

    /// What a script does whose page is an entry.
    fn note_entry_page(&mut self, event: Event) {
        let page = *self.url(self.page);
        entry::note(&page, event, self.seen);
    }

    /// Whose page is the origin of a send, where that page is an http row of
    /// an https host.
    fn note_page(&mut self) {
        if self.policy.partner(self.page).is_some() {
            self.seen.note(match self.is_handler {
                false => Event::StepSendHttpPage,
                true => Event::StepSendHttpPageHandler,
            });
        }
    }

    /// What a request finds on the connection that it is about to open.
    fn note_opened(&mut self, connection: usize, step: &RequestStep) {
        if let Some(replaced) = self.state.pending[connection] {
            self.seen.note(step.replaces);
            if replaced.kind == ConnectionKind::Picture {
                self.seen.note(step.replaces_picture);
            }
        }
        if connection == self.connection {
            self.seen.note(step.same);
        }
    }
}
