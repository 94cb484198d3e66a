//! One record after another: refused by number, or carried out.

use crate::entry::{self, Asked};
use crate::interpreter::Interpreter;
use crate::kind::ConnectionKind;
use crate::labels::{self, Condition, Forbidden};
use crate::layout::*;
use crate::missing;
use crate::numbers::*;
use crate::policy::{ConnectionTag, CookieTag, Policy};
use crate::record::{self, Kind, Record};
use crate::request::write_request;
use crate::rules::{Documents, Rules};
use crate::seen::{Event, Seen};
use crate::state::{Pending, State};
use crate::upgrade::{self, Upgrade};
use crate::Answer;

/// Feeds one record, as document 01 reads, rule by rule.
pub fn feed(
    policy: &[u32],
    scripts: &[u8],
    state: &mut [u32],
    record: &[u8],
    out: &mut [u8],
) -> Answer {
    feed_by(&Documents, policy, scripts, state, record, out)
}

/// Feeds one record as these rules have it: a monitor that leaves a condition
/// out, for tests that must tell it from this one.
pub fn feed_by(
    rules: &dyn Rules,
    policy: &[u32],
    scripts: &[u8],
    state: &mut [u32],
    record: &[u8],
    out: &mut [u8],
) -> Answer {
    let mut seen = Seen::new();
    answer(rules, policy, scripts, state, record, out, &mut seen)
}

/// Feeds one record and notes what happened.
pub fn feed_noting(
    policy: &[u32],
    scripts: &[u8],
    state: &mut [u32],
    record: &[u8],
    out: &mut [u8],
    seen: &mut Seen,
) -> Answer {
    answer(&Documents, policy, scripts, state, record, out, seen)
}

fn answer(
    rules: &dyn Rules,
    policy: &[u32],
    scripts: &[u8],
    state: &mut [u32],
    record: &[u8],
    out: &mut [u8],
    seen: &mut Seen,
) -> Answer {
    match judge(rules, policy, scripts, state, record, out, seen) {
        Err(refusal) => {
            seen.note(refusal.clause);
            Answer {
                number: refusal.number,
                bytes: 0,
                steps: 0,
                missing: refusal.missing,
            }
        }
        Ok(mut accepted) => {
            let steps = accepted.carry_out(scripts, seen);
            accepted.state.write(state);
            out[..accepted.output.len()].copy_from_slice(&accepted.output);
            Answer {
                number: ACCEPTED,
                bytes: accepted.output.len() as u32,
                steps,
                missing: NONE_MISSING,
            }
        }
    }
}

/// A refusal: its number, the clause that applied, and what is missing.
struct Refusal {
    number: u32,
    clause: Event,
    missing: u32,
}

/// Gives a clause its number, where no endpoint is missing.
fn refuse(number: u32) -> impl Fn(Event) -> Refusal {
    move |clause| Refusal {
        number,
        clause,
        missing: NONE_MISSING,
    }
}

impl From<Forbidden> for Refusal {
    fn from(forbidden: Forbidden) -> Refusal {
        Refusal {
            number: forbidden.number,
            clause: forbidden.clause,
            missing: forbidden.missing.0,
        }
    }
}

/// The monitor's numbers, first that applies.
fn judge<'a>(
    rules: &'a dyn Rules,
    policy: &[u32],
    scripts: &[u8],
    state: &[u32],
    record: &[u8],
    out: &[u8],
    seen: &mut Seen,
) -> Result<Accepted<'a>, Refusal> {
    check_output(out).map_err(refuse(OUTPUT_SHORT))?;
    let policy = Policy::read(policy).map_err(refuse(POLICY_BAD))?;
    check_scripts(scripts).map_err(refuse(SCRIPTS_BAD))?;
    let state = State::read(rules, state, &policy).map_err(refuse(STATE_UNSOUND))?;
    record::check_map(record).map_err(refuse(KIND_UNKNOWN))?;
    record::check_key_map(record).map_err(refuse(KEY_MAP_EMPTY))?;
    record::check_length(record).map_err(refuse(CUT_OR_TOO_LONG))?;
    let named = record::read(record);
    record::check_range(&named).map_err(refuse(NAME_UNKNOWN))?;
    let record = record::upgraded(&named, &policy);
    record::check_numbers(&record, &policy).map_err(refuse(NAME_UNKNOWN))?;
    check_match(&record, &state, &policy).map_err(refuse(NOT_AWAITED))?;
    let conditions = labels::conditions(rules, &record, &policy);
    note_labels(rules, [&record, &named], &conditions, &policy, seen);
    labels::check(&conditions)?;
    Ok(Accepted {
        rules,
        policy,
        state,
        record,
        named,
        output: Vec::new(),
    })
}

/// The output buffer has at least 1,184 bytes, however few are needed.
fn check_output(out: &[u8]) -> Result<(), Event> {
    match out.len() < OUTPUT_BYTES {
        true => Err(Event::OutputShort),
        false => Ok(()),
    }
}

/// The script table has 2,048 bytes.
fn check_scripts(scripts: &[u8]) -> Result<(), Event> {
    match scripts.len() != SCRIPTS_BYTES {
        true => Err(Event::ScriptsLength),
        false => Ok(()),
    }
}

/// A response or redirect names a connection that holds its URL, and a
/// response is of the connection's kind.
fn check_match(record: &Record, state: &State, policy: &Policy) -> Result<(), Event> {
    if record.kind == Kind::Load {
        return Ok(());
    }
    let pending = state.pending[record.connection].ok_or(Event::MatchFree)?;
    if pending.url != record.url {
        let holds_partner = policy.partner(record.url) == Some(pending.url);
        return Err(match record.kind {
            Kind::Redirect if holds_partner => Event::MatchPartnerRedirect,
            _ if holds_partner => Event::MatchPartner,
            _ => Event::MatchOtherUrl,
        });
    }
    match record.kind {
        Kind::Response(kind) if kind != pending.kind => Err(match_clause(kind, pending.kind)),
        _ => Ok(()),
    }
}

/// The response of one kind on a connection of another.
fn match_clause(response: ConnectionKind, connection: ConnectionKind) -> Event {
    use ConnectionKind::{Document, Picture, Script};
    match (response, connection) {
        (Document, Picture) => Event::MatchDocumentOnPicture,
        (Document, _) => Event::MatchDocumentOnScript,
        (Script, Picture) => Event::MatchScriptOnPicture,
        (Script, _) => Event::MatchScriptOnDocument,
        (Picture, Script) => Event::MatchPictureOnScript,
        (Picture, _) => Event::MatchPictureOnDocument,
    }
}

/// The events of a record whose URL or target was replaced.
fn upgrade_of(kind: Kind) -> &'static Upgrade {
    match kind {
        Kind::Redirect => &upgrade::REDIRECT,
        _ => &upgrade::LOAD,
    }
}

/// What labels say of the record, by its conditions, and of the one that was
/// named where that is another.
fn note_labels(
    rules: &dyn Rules,
    [record, named]: [&Record; 2],
    conditions: &[Condition],
    policy: &Policy,
    seen: &mut Seen,
) {
    let clause = |forbidden: Forbidden| forbidden.clause;
    let checked = labels::check(conditions);
    let judged = checked.map_err(clause);
    missing::note(conditions, seen);
    if record != named {
        let row = labels::check(&labels::conditions(rules, named, policy));
        missing::note_row(checked, row, seen);
        upgrade_of(record.kind).note(judged, row.map_err(clause), seen);
    }
    let writers = policy.connection(record.connection).writers;
    match record.kind {
        Kind::Load => {
            let urls = [record, named].map(|of| policy.known_url(of.url));
            entry::note_load(urls, writers, judged, seen);
        }
        Kind::Redirect => {
            let asked = Asked {
                url: *policy.known_url(record.target),
                named: *policy.known_url(named.target),
                from: *policy.known_url(record.url),
                writers,
            };
            entry::REDIRECT.note(&asked, judged, seen);
            entry::note_message(&asked, judged, seen);
        }
        Kind::Response(_) => {}
    }
}

/// A record that no number refuses, and what it works on.
struct Accepted<'a> {
    rules: &'a dyn Rules,
    policy: Policy,
    state: State,
    record: Record,
    /// The record before URL or target was replaced.
    named: Record,
    output: Vec<u8>,
}

impl Accepted<'_> {
    /// Does what the record does and gives the steps run.
    fn carry_out(&mut self, scripts: &[u8], seen: &mut Seen) -> u32 {
        self.note_kind(seen);
        match self.record.kind {
            Kind::Load => {
                self.load(seen);
                0
            }
            Kind::Redirect => {
                self.redirect(seen);
                0
            }
            Kind::Response(kind) => self.respond(kind, scripts, seen),
        }
    }

    /// Load: the connection is opened as a document, replacing whatever was
    /// pending; a request goes out.
    fn load(&mut self, seen: &mut Seen) {
        let pending = &mut self.state.pending[self.record.connection];
        if let Some(replaced) = pending {
            seen.note(Event::LoadReplaces);
            if replaced.kind == ConnectionKind::Picture {
                seen.note(Event::LoadReplacesPicture);
            }
        }
        let document = Pending::unhandled(ConnectionKind::Document, self.record.url);
        *pending = Some(document);
        self.request(seen);
    }

    /// Redirect: cookies are stored for the old URL's host, the connection
    /// keeps kind, origin and handler and now holds the target; a request of
    /// its kind goes out.
    fn redirect(&mut self, seen: &mut Seen) {
        self.store_cookies(seen);
        let pending = &mut self.state.pending[self.record.connection];
        let pending = pending.as_mut().expect("the connection was matched");
        pending.url = self.record.target;
        let Pending { kind, origin, .. } = *pending;
        let carries = self.request(seen);
        seen.note(match (kind, carries) {
            (ConnectionKind::Document, _) => Event::RedirectDocument,
            (ConnectionKind::Script, _) => Event::RedirectScript,
            (ConnectionKind::Picture, false) => Event::RedirectPicture,
            (ConnectionKind::Picture, true) => Event::RedirectPictureCookies,
        });
        if kind == ConnectionKind::Script && self.policy.partner(origin).is_some() {
            seen.note(Event::RedirectHttpOrigin);
        }
        self.note_excused(kind, seen);
    }

    /// Response: its cookies are stored and the connection is freed. Then a
    /// document's runs its script, with the connection's URL as page, and a
    /// script's the handler, with the origin as page; a picture's runs nothing.
    fn respond(&mut self, kind: ConnectionKind, scripts: &[u8], seen: &mut Seen) -> u32 {
        self.store_cookies(seen);
        let pending = self.state.pending[self.record.connection].take();
        let pending = pending.expect("the connection was matched");
        let Record { script, value, .. } = self.record;
        match kind {
            ConnectionKind::Document => self.run(scripts, script, pending.url, 0, seen),
            ConnectionKind::Script => {
                self.run(scripts, pending.handler, pending.origin, value, seen)
            }
            ConnectionKind::Picture => 0,
        }
    }

    /// Runs a script for this page, with the value in register 0.
    fn run(
        &mut self,
        scripts: &[u8],
        script: usize,
        page: usize,
        value: u32,
        seen: &mut Seen,
    ) -> u32 {
        let mut interpreter = Interpreter {
            rules: self.rules,
            policy: &self.policy,
            state: &mut self.state,
            output: &mut self.output,
            seen,
            page,
            is_handler: self.record.kind == Kind::Response(ConnectionKind::Script),
            connection: self.record.connection,
            registers: [value, 0, 0, 0],
        };
        interpreter.run(&scripts[SCRIPT_BYTES * script..][..SCRIPT_BYTES])
    }

    /// Each delivered cookie belongs to the host of the record's URL. One
    /// that may not be stored is passed over and the rest goes on.
    fn store_cookies(&mut self, seen: &mut Seen) {
        let host = self.policy.known_url(self.record.url).host();
        let tag = self.policy.connection(self.record.connection);
        for &(key, value) in &self.record.cookies {
            let event = judge_cookie(self.rules, tag, self.policy.cookie(host, key));
            seen.note(event);
            if event == Event::CookieStored {
                self.state.store(host, key, value);
                self.note_stored(seen);
            }
        }
    }

    /// Sends the request for what is pending on the record's connection;
    /// whether it carries cookies.
    fn request(&mut self, seen: &mut Seen) -> bool {
        let number = self.record.connection;
        let carried = write_request(
            self.rules,
            &self.policy,
            &self.state,
            number,
            &mut self.output,
            seen,
        );
        self.note_cookies(seen);
        !carried.is_empty()
    }

    fn note_cookies(&self, seen: &mut Seen) {
        let Accepted { record, named, .. } = self;
        if record != named {
            let urls = [record, named].map(|of| match of.kind {
                Kind::Redirect => of.target,
                _ => of.url,
            });
            upgrade_of(record.kind).note_cookies(&self.policy, &self.state, urls, seen);
        }
    }

    fn note_kind(&self, seen: &mut Seen) {
        use ConnectionKind::{Document, Picture, Script};
        let cookies = !self.record.cookies.is_empty();
        seen.note(match (self.record.kind, cookies) {
            (Kind::Load, _) => Event::Load,
            (Kind::Response(Document), false) => Event::DocumentResponse,
            (Kind::Response(Document), true) => Event::DocumentResponseCookies,
            (Kind::Response(Script), false) => Event::ScriptResponse,
            (Kind::Response(Script), true) => Event::ScriptResponseCookies,
            (Kind::Response(Picture), false) => Event::PictureResponse,
            (Kind::Response(Picture), true) => Event::PictureResponseCookies,
            (Kind::Redirect, false) => Event::Redirect,
            (Kind::Redirect, true) => Event::RedirectCookies,
        });
        if self.policy.partner(self.record.url).is_some() {
            seen.note(match self.record.kind {
                Kind::Redirect => Event::RedirectHeldHttp,
                _ => Event::ResponseHeldHttp,
            });
        }
    }

    /// Of which kind a redirect is whose writers the target does not have.
    fn note_excused(&self, kind: ConnectionKind, seen: &mut Seen) {
        let tag = self.policy.connection(self.record.connection);
        let target = self.policy.known_url(self.record.target);
        if !tag.writers.within(target.writers) {
            seen.note(match kind {
                ConnectionKind::Document => Event::RedirectExcusedDocument,
                ConnectionKind::Script => Event::RedirectExcusedScript,
                ConnectionKind::Picture => Event::RedirectExcusedPicture,
            });
        }
    }

    fn note_stored(&self, seen: &mut Seen) {
        if self.record.kind == Kind::Response(ConnectionKind::Picture) {
            seen.note(Event::PictureResponseStores);
        }
        let url = self.policy.known_url(self.record.url);
        entry::note(url, Event::CookieStoredEntry, seen);
    }
}

/// A delivered cookie is stored if its readers are within the connection's
/// readers and the connection's writers within its writers.
fn judge_cookie(rules: &dyn Rules, tag: &ConnectionTag, cookie: &CookieTag) -> Event {
    if !rules.store_readers(tag, cookie) {
        return Event::CookiePassedReaders;
    }
    if !rules.store_writers(tag, cookie) {
        return Event::CookiePassedWriters;
    }
    Event::CookieStored
}
