//! Notes what came of a pair whose views are equal.

use cases::labels::{Pending, ALL, CONNECTIONS, DOCUMENT, KEYS, OPEN_AT, PRESENT_AT, SCRIPT};
use cases::list::{DOCUMENT_REQUEST, SCRIPT_REQUEST};
use cases::record::{
    Fields, COOKIES, DOCUMENT_RESPONSE, LOAD, PICTURE_RESPONSE, REDIRECT, SCRIPT_RESPONSE,
};
use reference::layout::SCRIPTS_BYTES;

use crate::case::Case;
use crate::compare::Stretch;
use crate::events::{Event, Seen};
use crate::record::read_input;
use crate::run::Fed;
use crate::scope::{Scope, Struck};

pub struct Notes<'a> {
    pub scope: &'a Scope,
    pub seen: &'a mut Seen,
}

impl Notes<'_> {
    pub fn note(&mut self, case: &Case, pairs: &[[Stretch; 2]]) {
        self.note_if(self.scope.set == 0, Event::EmptySet);
        self.note_if(self.scope.set == ALL, Event::FullSet);
        let [first, second] = case.lists.each_ref().map(|list| list.iter());
        let is_same = first
            .map(|fed| &fed.record)
            .eq(second.map(|fed| &fed.record));
        let is_table = case.scripts.len() == SCRIPTS_BYTES;
        self.note_if(self.scope.is_refused && !is_same, Event::PolicyRefused);
        self.note_if(!is_table && !is_same, Event::ScriptsRefused);
        for pair in pairs {
            self.note_pair(pair);
        }
    }

    fn note_if(&mut self, holds: bool, event: Event) {
        if holds {
            self.seen.note(event);
        }
    }

    fn note_pair(&mut self, pair: &[Stretch; 2]) {
        let [first, second] = pair;
        for (stretch, other) in [(first, second), (second, first)] {
            self.note_struck(stretch, other);
        }
        if let [Some((first, remains)), Some((second, _))] = pair.each_ref().map(|of| of.remaining)
        {
            self.note_if(first.room != second.room, Event::OtherRoom);
            if first.is_accepted() && second.is_accepted() {
                self.note_remaining([first, second], &remains);
                self.note_sources(pair, first, &remains);
            }
        }
        self.note_differing(pair);
        self.note_requests(pair);
        self.note_state(first.after);
    }

    /// What is struck in one list and is not in the same place of the other.
    fn note_struck(&mut self, stretch: &Stretch, other: &Stretch) {
        let mut before = stretch.before;
        for fed in stretch.struck {
            let is_shared = other.struck.iter().any(|of| of.record == fed.record);
            match self.scope.remains(&fed.record) {
                _ if is_shared => {}
                Err(Struck::Malformed) => self.seen.note(Event::Malformed),
                Err(Struck::UnknownName) => self.seen.note(Event::UnknownName),
                Err(Struck::Label(fields)) if fed.is_accepted() => {
                    let pending = Pending::of(before, fields.connection);
                    self.seen.note(struck_event(&fields, pending));
                    let is_changed = before[..OPEN_AT] != fed.state[..OPEN_AT];
                    self.note_if(is_changed, Event::StruckStores);
                    self.note_sent(fed, &fields);
                }
                _ => {}
            }
            before = &fed.state;
        }
    }

    /// What a struck record sends.
    fn note_sent(&mut self, fed: &Fed, fields: &Fields) {
        for request in &fed.requests {
            let is_excused = self.scope.excuses(request.url);
            let is_redirect = fields.map & !COOKIES == REDIRECT;
            self.seen.note(match (is_excused, is_redirect) {
                (false, _) => Event::StruckSends,
                (true, false) => Event::SendsEntry,
                (true, true) => Event::RedirectsToEntry,
            });
        }
    }

    /// How a record that remains, and is accepted, differs in the lists.
    fn note_remaining(&mut self, pair: [&Fed; 2], remains: &Fields) {
        let [first, second] = pair.map(|fed| read_input(&fed.record).expect("it remains"));
        self.note_if(first.url != second.url, Event::LoadRenamed);
        self.note_if(first.target != second.target, Event::RedirectRenamed);
        let is_apart = (first.keys, first.values) != (second.keys, second.values);
        let is_bare = remains.keys == 0 && (first.keys == 0 || second.keys == 0);
        self.note_if(is_apart && is_bare, Event::LeftWithNone);
        self.note_if(is_apart && remains.keys != 0, Event::LeftWithSome);
        let host = self.scope.host(remains.url);
        let is_stored = (0..KEYS).any(|key| {
            let [a, b] = pair.map(|fed| stored(&fed.state, host, key));
            let is_struck = |of: Fields| (of.keys & !remains.keys) >> key & 1 == 1;
            let stores = |value, of: Fields| is_struck(of) && value == Some(of.values[key]);
            a != b && (stores(a, first) || stores(b, second))
        });
        self.note_if(is_stored, Event::StruckStored);
    }

    /// What it finds, and what sends the requests that are compared.
    fn note_sources(&mut self, pair: &[Stretch; 2], fed: &Fed, remains: &Fields) {
        let [a, b] = pair.each_ref().map(state_met);
        let is_compared = |of| self.scope.view_request(of).is_some();
        let compared = fed.requests.iter().any(is_compared);
        self.note_if(compared && a != b, Event::ComparedApart);
        let place = OPEN_AT + usize::from(remains.connection);
        let (is_run, source) = match remains.map & !COOKIES {
            LOAD => (false, Event::LoadCompared),
            REDIRECT => (false, Event::RedirectCompared),
            DOCUMENT_RESPONSE => (true, Event::ResponseCompared),
            SCRIPT_RESPONSE => (true, Event::HandlerCompared),
            _ => return,
        };
        let replaces = remains.map == LOAD && a[place] != b[place];
        self.note_if(replaces, Event::LoadReplaces);
        self.note_if(replaces && compared, Event::LoadReplacesCompared);
        self.note_if(is_run && a != b, Event::ScriptApart);
        self.note_if(compared, source);
    }

    fn note_differing(&mut self, pair: &[Stretch; 2]) {
        let [a, b] = pair.each_ref().map(|stretch| stretch.after);
        self.note_if(a[..OPEN_AT] != b[..OPEN_AT], Event::JarsDiffer);
        self.note_if(a[OPEN_AT..] != b[OPEN_AT..], Event::ConnectionsDiffer);
        let [a, b] = pair.each_ref().map(Stretch::requests);
        self.note_if(!a.eq(b), Event::RequestsDiffer);
    }

    /// The requests that are compared.
    fn note_requests(&mut self, pair: &[Stretch; 2]) {
        let scope = self.scope;
        let [first, second] = pair.each_ref().map(|stretch| {
            let requests = stretch.requests();
            requests.filter(|of| scope.view_request(of).is_some())
        });
        for (a, b) in first.zip(second) {
            self.seen.note(match a.map & !COOKIES {
                DOCUMENT_REQUEST => Event::DocumentCompared,
                SCRIPT_REQUEST => Event::ScriptCompared,
                _ => Event::PictureCompared,
            });
            let compared = scope.view_request(a).map_or(0, |of| of.keys);
            self.note_if(compared != 0, Event::CarriedCompared);
            self.note_if(a != b, Event::CarriedApart);
            let is_struck = scope.strikes_on(a.connection);
            self.note_if(is_struck, Event::ComparedOnStruck);
        }
    }

    /// What is compared of a state.
    fn note_state(&mut self, state: &[u32]) {
        let seen = self.scope.view_state(state);
        let is_stored = seen[PRESENT_AT..OPEN_AT].iter().any(|&keys| keys != 0);
        self.note_if(is_stored, Event::StoredCompared);
        for connection in 0..CONNECTIONS as u8 {
            match Pending::of(&seen, connection).kind {
                0 => {}
                DOCUMENT => self.seen.note(Event::PendingDocument),
                SCRIPT => self.seen.note(Event::PendingScript),
                _ => self.seen.note(Event::PendingPicture),
            }
        }
    }
}

/// A record that is struck by labels, with what its connection held.
fn struck_event(fields: &Fields, pending: Pending) -> Event {
    match (fields.map & !COOKIES, pending.kind) {
        (LOAD, _) => Event::Load,
        (DOCUMENT_RESPONSE, _) => Event::Document,
        (SCRIPT_RESPONSE, _) => Event::Script,
        (PICTURE_RESPONSE, _) => Event::Picture,
        (_, DOCUMENT) => Event::RedirectedDocument,
        (_, SCRIPT) => Event::RedirectedScript,
        _ => Event::RedirectedPicture,
    }
}

/// The state that the record which remains is fed with.
fn state_met<'a>(stretch: &Stretch<'a>) -> &'a [u32] {
    let struck = stretch.struck.last();
    struck.map_or(stretch.before, |fed| &fed.state)
}

/// The value of a cookie, if present.
fn stored(state: &[u32], host: usize, key: usize) -> Option<u32> {
    let is_present = state[PRESENT_AT + host] >> key & 1 == 1;
    is_present.then_some(state[KEYS * host + key])
}
