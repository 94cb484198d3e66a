//! A session while one record is explained: its state, what went out, and the events so far. What loads, redirects and scripts share is here.

use crate::event::Event;
use zolherima::{Pending, PendingKind, Policy, Request, RequestKind, Scripts, State, HOSTS, KEYS};

/// Where the state has the keys present of each host, after the values of all cookies.
pub const PRESENT: usize = HOSTS * KEYS;
/// Where the state has what is pending on each connection.
pub const PENDING: usize = PRESENT + HOSTS;

pub struct Machine<'a> {
    pub policy: &'a Policy,
    pub scripts: &'a Scripts,
    pub state: State,
    pub events: Vec<Event>,
    pub out: Vec<u8>,
}

impl<'a> Machine<'a> {
    pub fn new(policy: &'a Policy, scripts: &'a Scripts, state: &State) -> Machine<'a> {
        Machine {
            policy,
            scripts,
            state: state.clone(),
            events: Vec::new(),
            out: Vec::new(),
        }
    }

    /// The host of a URL that the policy has, as every URL does that is asked for, pending or a page.
    pub fn host(&self, url: u8) -> u32 {
        self.policy
            .url(url.into())
            .map_or(0, |url| url.address.host())
    }

    /// The URL that is asked for where this one is named: its partner, where it has one.
    pub fn asked_for(&self, named: u8) -> u8 {
        u8::try_from(self.policy.asked_for(named.into())).unwrap_or(named)
    }

    /// Tells where another URL is asked for than the one that is named.
    pub fn tell_asked(&mut self, named: u8, asked: u8) {
        if named != asked {
            self.events.push(Event::AskedInstead {
                named: named.into(),
                asked: asked.into(),
            });
        }
    }

    /// Opens a connection, whatever was pending on it, and sends the request.
    pub fn open(&mut self, connection: u8, pending: Pending) {
        self.events.push(Event::Opened {
            connection: connection.into(),
            pending,
            replaced: self.state.pending(connection.into()),
        });
        self.hold(connection, word(pending));
        self.send(connection, pending);
    }

    /// Moves a connection to the target of a redirect, and sends the request.
    pub fn move_to(&mut self, connection: u8, before: Pending, target: u8) {
        let pending = Pending {
            url: target,
            ..before
        };
        self.events.push(Event::Moved {
            connection: connection.into(),
            from: before.url.into(),
            to: target.into(),
        });
        self.hold(connection, word(pending));
        self.send(connection, pending);
    }

    pub fn free(&mut self, connection: u8) {
        self.hold(connection, 0);
        self.events.push(Event::Freed {
            connection: connection.into(),
        });
    }

    /// Gives a cookie its value; it is present from then on.
    pub fn set_cookie(&mut self, host: u32, key: u32, value: u32) {
        let words = self.state.words_mut();
        words[KEYS * host as usize + key as usize] = value;
        words[PRESENT + host as usize] |= 1 << key;
    }

    fn hold(&mut self, connection: u8, word: u32) {
        self.state.words_mut()[PENDING + usize::from(connection)] = word;
    }

    /// Sends the request of what is pending, with the cookies of its URL's host.
    fn send(&mut self, connection: u8, pending: Pending) {
        let (cookies, withheld) = self.carried(pending.url);
        let request = Request {
            kind: request_kind(pending.kind),
            url: pending.url,
            connection,
            cookies,
        };
        let (bytes, length) = request.write();
        self.out.extend_from_slice(&bytes[..length]);
        self.events.push(Event::Sent { request, withheld });
    }
}

/// The document at the URL that a load asks for.
pub fn document(url: u8) -> Pending {
    Pending {
        kind: PendingKind::Document,
        url,
    }
}

/// What goes out where this is opened.
fn request_kind(pending: PendingKind) -> RequestKind {
    match pending {
        PendingKind::Document => RequestKind::Document,
        PendingKind::Script { handler, .. } => RequestKind::Script { handler },
        PendingKind::Picture => RequestKind::Picture,
    }
}

/// The word of the state for an open connection: kind, origin, handler, URL, a byte each.
fn word(pending: Pending) -> u32 {
    let (kind, origin, handler) = match pending.kind {
        PendingKind::Document => (1, 0, 0),
        PendingKind::Script { origin, handler } => (2, origin, handler),
        PendingKind::Picture => (3, 0, 0),
    };
    u32::from_be_bytes([kind, origin, handler, pending.url])
}
