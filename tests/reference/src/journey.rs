//! The journey: the lowest connection on which its first URL can be loaded and
//! each further one reached by redirect.

use crate::journey_notes;
use crate::journey_refusal_notes;
use crate::journey_seen::{JourneyEvent, JourneySeen};
use crate::labels::{self, Forbidden};
use crate::layout::*;
use crate::numbers::{ACCEPTED, POLICY_BAD};
use crate::policy::{Policy, Url};
use crate::rules::Documents;
use crate::seen::Event;

/// The journey is empty, longer than 16, or names a URL without a row.
pub const JOURNEY_BAD: u32 = 17;
/// The connection that is asked about is none of the 32.
pub const CONNECTION_UNKNOWN: u32 = 6;
/// What is told in place of a connection where none carries the journey.
pub const NO_CONNECTION: u32 = 32;
/// The most URLs of a journey.
pub const JOURNEY_URLS: usize = 16;

/// What came of a search.
#[derive(Debug, Clone, Copy, PartialEq, Eq)]
pub struct Found {
    /// 0, or the number of the refusal with connection 0.
    pub number: u32,
    /// The lowest connection that carries the journey, or [`NO_CONNECTION`].
    pub connection: u32,
}

impl Found {
    /// What is told of a search that is refused.
    pub(crate) fn refused(number: u32) -> Found {
        Found {
            number,
            connection: 0,
        }
    }
}

/// Why a connection does not carry a journey.
#[derive(Debug, Clone, Copy, PartialEq, Eq)]
pub struct Failure {
    /// The first place at which the monitor would refuse, from 0 on.
    pub place: usize,
    /// The number with which it would refuse: 8 or 9.
    pub number: u32,
    /// The endpoint that it would tell.
    pub missing: u32,
    /// The set that lacks it is the URL's, else the connection's.
    pub of_url: bool,
}

/// The first number that applies, and the clause of it.
#[derive(Debug)]
pub(crate) struct Refusal {
    pub number: u32,
    pub clause: JourneyEvent,
}

/// A journey that is not refused: each of its URLs has a row.
#[derive(Debug)]
pub(crate) struct Journey {
    pub policy: Policy,
    /// The numbers as they are given.
    pub urls: Vec<usize>,
}

/// Finds a connection, as documents 01 and 02 read, rule by rule.
pub fn journey_find(policy: &[u32], urls: &[u8]) -> Found {
    match Journey::read(policy, urls) {
        Err(refusal) => Found::refused(refusal.number),
        Ok(journey) => journey.find(),
    }
}

/// Finds a connection and notes what happened.
pub fn journey_noting(policy: &[u32], urls: &[u8], seen: &mut JourneySeen) -> Found {
    match Journey::read(policy, urls) {
        Err(Refusal { number, clause }) => {
            seen.note(clause);
            journey_refusal_notes::note(number, policy, urls, seen);
            Found::refused(number)
        }
        Ok(journey) => {
            let found = journey.find();
            journey_notes::note(&journey, found.connection, seen);
            found
        }
    }
}

/// Where and why a connection 0 to 31 does not carry a journey that is not
/// refused; none where it carries it.
pub fn first_failure(policy: &[u32], connection: u32, urls: &[u8]) -> Option<Failure> {
    let journey = Journey::read(policy, urls).expect("the journey is not refused");
    journey.first_failure(connection as usize)
}

/// Where and why each of these connections does not carry a journey, none where
/// it carries it; or the first number that applies.
pub fn journey_stops(
    policy: &[u32],
    urls: &[u8],
    connections: &[u32],
) -> Vec<Result<Option<Failure>, u32>> {
    let journey = Journey::read(policy, urls).map_err(|refusal| refusal.number);
    let stop = |&connection: &u32| match (&journey, connection as usize) {
        (Err(number), _) => Err(*number),
        (Ok(journey), connection @ 0..CONNECTIONS) => Ok(journey.first_failure(connection)),
        (Ok(_), _) => Err(CONNECTION_UNKNOWN),
    };
    connections.iter().map(stop).collect()
}

impl Journey {
    /// The policy is well formed; the journey has 1 to 16 URLs, and each has a
    /// row.
    pub fn read(policy: &[u32], urls: &[u8]) -> Result<Journey, Refusal> {
        let refuse = |number| move |clause| Refusal { number, clause };
        let policy = Policy::read(policy).map_err(policy_clause);
        let policy = policy.map_err(refuse(POLICY_BAD))?;
        check_length(urls).map_err(refuse(JOURNEY_BAD))?;
        let urls: Vec<_> = urls.iter().map(|&url| usize::from(url)).collect();
        for &url in &urls {
            check_row(url, &policy).map_err(refuse(JOURNEY_BAD))?;
        }
        Ok(Journey { policy, urls })
    }

    /// The lowest connection that carries it, or none, which is no refusal.
    pub fn find(&self) -> Found {
        let carries = |&connection: &usize| self.first_failure(connection).is_none();
        let lowest = (0..CONNECTIONS).find(carries);
        Found {
            number: ACCEPTED,
            connection: lowest.map_or(NO_CONNECTION, |connection| connection as u32),
        }
    }

    /// Where and why the connection does not carry it.
    pub fn first_failure(&self, connection: usize) -> Option<Failure> {
        (0..self.urls.len()).find_map(|place| {
            let forbidden = self.check(connection, place).err()?;
            Some(Failure {
                place,
                number: forbidden.number,
                missing: forbidden.missing.0,
                of_url: is_of_url(forbidden.clause),
            })
        })
    }

    /// The first URL can be loaded, a further one reached by redirect; where
    /// the redirect comes from does not matter.
    fn check(&self, connection: usize, place: usize) -> Result<(), Forbidden> {
        let tag = self.policy.connection(connection);
        let url = self.url(place);
        match place {
            0 => labels::check(&labels::load(&Documents, tag, url)),
            _ => labels::check(&labels::redirect(&Documents, tag, url)),
        }
    }

    /// The URL at a place, after the replacement.
    pub fn url(&self, place: usize) -> &Url {
        self.policy.known_url(self.upgraded(place))
    }

    /// Its number.
    pub fn upgraded(&self, place: usize) -> usize {
        self.policy.upgraded(self.urls[place])
    }
}

/// Which part of the policy is not well formed.
fn policy_clause(clause: Event) -> JourneyEvent {
    match clause {
        Event::PolicyLength => JourneyEvent::PolicyLength,
        Event::PolicyAddress
        | Event::PolicyAddressAbove
        | Event::PolicyEmptyRowSets
        | Event::PolicyEventEndpoint
        | Event::PolicyEventEndpointEntry => JourneyEvent::PolicyRow,
        Event::PolicyScriptReaders => JourneyEvent::PolicyConnection,
        Event::PolicyHttpsHosts => JourneyEvent::PolicyHosts,
        _ => JourneyEvent::PolicyPartner,
    }
}

fn check_length(urls: &[u8]) -> Result<(), JourneyEvent> {
    match urls.len() {
        0 => Err(JourneyEvent::JourneyEmpty),
        1..=JOURNEY_URLS => Ok(()),
        _ => Err(JourneyEvent::JourneyLong),
    }
}

/// The number is at most 63 and its row not empty, before any replacement.
fn check_row(number: usize, policy: &Policy) -> Result<(), JourneyEvent> {
    if number >= URLS {
        return Err(JourneyEvent::NumberAbove);
    }
    match policy.url(number) {
        None => Err(JourneyEvent::RowEmpty),
        Some(_) => Ok(()),
    }
}

/// The URL's readers lack a reader of the connection, or its writers a writer.
/// Else the connection lacks the URL's event or message endpoint.
fn is_of_url(clause: Event) -> bool {
    match clause {
        Event::ReadersLoad | Event::ReadersRedirect | Event::WritersRedirect => true,
        Event::WritersLoad | Event::ReadersRedirectEvent | Event::WritersRedirectMessage => false,
        _ => unreachable!("labels have no other clause"),
    }
}
