//! Numbers 8 and 9: what labels ask of a record, condition by condition. Number
//! and missing endpoint come from the first condition that fails.

use crate::endpoint::{Endpoint, EndpointSet};
use crate::numbers::{READERS_FORBID, WRITERS_FORBID};
use crate::policy::{ConnectionTag, Policy, Url};
use crate::record::{Kind, Record};
use crate::rules::Rules;
use crate::seen::Event;

/// One condition; it holds where no endpoint is lacking.
pub struct Condition {
    pub number: u32,
    pub clause: Event,
    /// Every endpoint that is asked for and is not there.
    pub lacking: EndpointSet,
}

/// A condition that fails, with the lowest endpoint that is lacking.
#[derive(Debug, Clone, Copy)]
pub struct Forbidden {
    pub number: u32,
    pub clause: Event,
    pub missing: Endpoint,
}

impl Condition {
    /// What it forbids, where it fails.
    pub fn forbids(&self) -> Option<Forbidden> {
        let missing = self.lacking.lowest()?;
        Some(Forbidden {
            number: self.number,
            clause: self.clause,
            missing,
        })
    }
}

/// The first condition that fails forbids the record.
pub fn check(conditions: &[Condition]) -> Result<(), Forbidden> {
    match conditions.iter().find_map(Condition::forbids) {
        Some(forbidden) => Err(forbidden),
        None => Ok(()),
    }
}

/// The conditions of a record whose numbers were checked, in the order in which
/// they are asked. A response has none.
pub fn conditions(rules: &dyn Rules, record: &Record, policy: &Policy) -> Vec<Condition> {
    let tag = policy.connection(record.connection);
    match record.kind {
        Kind::Load => load(rules, tag, policy.known_url(record.url)).into(),
        Kind::Redirect => redirect(rules, tag, policy.known_url(record.target)).into(),
        Kind::Response(_) => Vec::new(),
    }
}

/// The connection's readers are within the URL's readers; the URL's message
/// endpoint is in the connection's writers.
pub fn load(rules: &dyn Rules, tag: &ConnectionTag, url: &Url) -> [Condition; 2] {
    [
        readers(Event::ReadersLoad, rules.fit_readers(tag, url)),
        writers(Event::WritersLoad, tag.message_missing(url)),
    ]
}

/// The target's event endpoint is in the connection's readers, and these are
/// within the target's readers; its message endpoint is in the connection's
/// writers, and the target admits these.
pub fn redirect(rules: &dyn Rules, tag: &ConnectionTag, target: &Url) -> [Condition; 4] {
    [
        readers(
            Event::ReadersRedirectEvent,
            rules.redirect_event(tag, target),
        ),
        readers(Event::ReadersRedirect, rules.fit_readers(tag, target)),
        writers(Event::WritersRedirectMessage, tag.message_missing(target)),
        writers(Event::WritersRedirect, rules.redirect_writers(tag, target)),
    ]
}

/// A condition of number 8.
fn readers(clause: Event, lacking: EndpointSet) -> Condition {
    Condition {
        number: READERS_FORBID,
        clause,
        lacking,
    }
}

/// A condition of number 9.
fn writers(clause: Event, lacking: EndpointSet) -> Condition {
    Condition {
        number: WRITERS_FORBID,
        clause,
        lacking,
    }
}
