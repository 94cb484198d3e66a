//! The state: cookies and what each connection waits for.

use crate::kind::ConnectionKind;
use crate::layout::*;
use crate::policy::{ConnectionTag, Policy};
use crate::rules::Rules;
use crate::seen::Event;

/// What an open connection waits for. Only a script's request has an origin
/// and a handler; of every other kind both are 0.
#[derive(Debug, Clone, Copy, PartialEq, Eq)]
pub struct Pending {
    pub kind: ConnectionKind,
    pub url: usize,
    pub origin: usize,
    pub handler: usize,
}

impl Pending {
    /// What no script handles.
    pub fn unhandled(kind: ConnectionKind, url: usize) -> Pending {
        Pending {
            kind,
            url,
            origin: 0,
            handler: 0,
        }
    }
}

/// A sound state.
#[derive(Debug, Clone)]
pub struct State {
    /// The value of each cookie that is present, by 8 host + key.
    cookies: Vec<Option<u32>>,
    /// What is pending, by connection; nothing where it is free.
    pub pending: Vec<Option<Pending>>,
}

impl State {
    /// Reads the words; the error is the clause that is broken.
    pub fn read(rules: &dyn Rules, words: &[u32], policy: &Policy) -> Result<State, Event> {
        if words.len() != STATE_WORDS {
            return Err(Event::StateLength);
        }
        let mut cookies = Vec::new();
        for host in 0..HOSTS {
            let values = &words[KEYS * host..KEYS * host + KEYS];
            cookies.extend(read_host(values, words[STATE_PRESENT + host])?);
        }
        let mut pending = Vec::new();
        for number in 0..CONNECTIONS {
            let word = words[STATE_CONNECTIONS + number];
            let tag = policy.connection(number);
            pending.push(read_pending(rules, word, tag, policy)?);
        }
        Ok(State { cookies, pending })
    }

    /// Writes every word.
    pub fn write(&self, words: &mut [u32]) {
        words.fill(0);
        for (place, cookie) in self.cookies.iter().enumerate() {
            if let Some(value) = *cookie {
                words[place] = value;
                words[STATE_PRESENT + place / KEYS] |= 1 << (place % KEYS);
            }
        }
        for (number, pending) in self.pending.iter().enumerate() {
            words[STATE_CONNECTIONS + number] = pending_word(*pending);
        }
    }

    /// The value of a host's cookie, if present.
    pub fn cookie(&self, host: usize, key: usize) -> Option<u32> {
        self.cookies[KEYS * host + key]
    }

    /// Stores a cookie, which is present from then on.
    pub fn store(&mut self, host: usize, key: usize, value: u32) {
        self.cookies[KEYS * host + key] = Some(value);
    }
}

/// No other presence bit is set; an absent cookie's value is 0.
fn read_host(values: &[u32], present: u32) -> Result<Vec<Option<u32>>, Event> {
    if present >= 1 << KEYS {
        return Err(Event::StatePresenceBit);
    }
    let mut cookies = Vec::new();
    for (key, &value) in values.iter().enumerate() {
        let here = present >> key & 1 == 1;
        if !here && value != 0 {
            return Err(Event::StateAbsentValue);
        }
        cookies.push(here.then_some(value));
    }
    Ok(cookies)
}

/// The word is kind × 16,777,216 + origin × 65,536 + handler × 256 + URL.
fn read_pending(
    rules: &dyn Rules,
    word: u32,
    tag: &ConnectionTag,
    policy: &Policy,
) -> Result<Option<Pending>, Event> {
    let [number, origin, handler, url] = word.to_be_bytes().map(usize::from);
    if number == 0 {
        return match word {
            0 => Ok(None),
            _ => Err(Event::StateFreeWord),
        };
    }
    let pending = Pending {
        kind: ConnectionKind::of_number(number as u32).ok_or(Event::StateKind)?,
        url,
        origin,
        handler,
    };
    check_pending_url(rules, url, tag, policy)?;
    match pending.kind {
        ConnectionKind::Document => check_unhandled(
            pending,
            Event::StateDocumentOrigin,
            Event::StateDocumentHandler,
        )?,
        ConnectionKind::Picture => check_unhandled(
            pending,
            Event::StatePictureOrigin,
            Event::StatePictureHandler,
        )?,
        ConnectionKind::Script => check_script(pending, policy)?,
    }
    Ok(Some(pending))
}

/// Its URL names a non-empty row that the connection fits.
fn check_pending_url(
    rules: &dyn Rules,
    number: usize,
    tag: &ConnectionTag,
    policy: &Policy,
) -> Result<(), Event> {
    if number >= URLS {
        return Err(Event::StateUrlAbove);
    }
    let url = policy.url(number).ok_or(Event::StateUrlEmpty)?;
    if !rules.fit_readers(tag, url).is_empty() {
        return Err(url.clause(Event::StateUrlReaders, Event::StateUrlReadersEntry));
    }
    if !tag.writers_fit(url) {
        return Err(url.clause(Event::StateUrlWriters, Event::StateUrlWritersEntry));
    }
    Ok(())
}

/// A document and a picture have origin and handler 0.
fn check_unhandled(
    pending: Pending,
    origin_clause: Event,
    handler_clause: Event,
) -> Result<(), Event> {
    if pending.origin != 0 {
        return Err(origin_clause);
    }
    if pending.handler != 0 {
        return Err(handler_clause);
    }
    Ok(())
}

/// The handler of a script's request is at most 15, and its origin names a
/// non-empty row.
fn check_script(pending: Pending, policy: &Policy) -> Result<(), Event> {
    if pending.handler >= SCRIPTS {
        return Err(Event::StateHandler);
    }
    if pending.origin >= URLS {
        return Err(Event::StateOriginAbove);
    }
    if policy.url(pending.origin).is_none() {
        return Err(Event::StateOriginEmpty);
    }
    Ok(())
}

fn pending_word(pending: Option<Pending>) -> u32 {
    let Some(pending) = pending else { return 0 };
    let Pending {
        kind,
        url,
        origin,
        handler,
    } = pending;
    let parts = [kind.number() as usize, origin, handler, url];
    u32::from_be_bytes(parts.map(|part| part as u8))
}
