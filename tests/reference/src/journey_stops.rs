//! What each connection lacks for each URL of a journey, and who would carry
//! the journey if something else were asked. For the events alone: nothing is
//! decided here.

use crate::journey::Journey;
use crate::layout::CONNECTIONS;
use crate::policy::{ConnectionTag, Policy, Url};

/// The conditions, as bits in the order in which they are asked. The connection
/// lacks the URL's event endpoint.
pub const EVENT: u8 = 1;
/// The URL lacks readers of the connection.
pub const READERS: u8 = 2;
/// The connection lacks the URL's message endpoint.
pub const MESSAGE: u8 = 4;
/// The URL lacks writers of the connection, be it an entry or not.
pub const WRITERS: u8 = 8;

const LOAD: u8 = READERS | MESSAGE;
const REDIRECT: u8 = EVENT | READERS | MESSAGE | WRITERS;

/// A part of a journey. A single URL is the first, and not the last.
#[derive(Debug, Clone, Copy, PartialEq, Eq)]
pub enum Part {
    First,
    Middle,
    Last,
}

impl Part {
    /// The part that a place of so many belongs to.
    pub fn of(place: usize, count: usize) -> Part {
        match place {
            0 => Part::First,
            _ if place + 1 == count => Part::Last,
            _ => Part::Middle,
        }
    }
}

/// The conditions in which each connection fails for a URL.
type Lacks = [u8; CONNECTIONS];

/// A URL of a journey, at its place.
pub struct Stop<'a> {
    pub part: Part,
    /// The URL after the replacement, and the row that was named.
    pub url: &'a Url,
    pub named: &'a Url,
    pub is_replaced: bool,
    lacks: Lacks,
    lacks_named: Lacks,
}

/// Some of the conditions, asked of a URL.
#[derive(Clone, Copy)]
pub struct Question<'a> {
    lacks: &'a Lacks,
    conditions: u8,
}

impl Question<'_> {
    /// The connections that it passes, as bits.
    pub fn passes(self) -> u32 {
        let passes = |&number: &usize| self.lacks[number] & self.conditions == 0;
        let numbers = (0..CONNECTIONS).filter(passes);
        numbers.fold(0, |set, number| set | 1 << number)
    }

    /// The same without these conditions.
    pub fn but_for(self, conditions: u8) -> Self {
        Question {
            conditions: self.conditions & !conditions,
            ..self
        }
    }
}

impl Stop<'_> {
    fn ask(&self, conditions: u8) -> Question<'_> {
        Question {
            lacks: &self.lacks,
            conditions,
        }
    }

    /// What is asked at a place, of a URL that is an entry or not.
    fn conditions(&self, is_entry: bool) -> u8 {
        match self.part {
            Part::First => LOAD,
            _ if is_entry => REDIRECT & !WRITERS,
            _ => REDIRECT,
        }
    }

    /// As it is judged.
    pub fn judged(&self) -> Question<'_> {
        self.ask(self.conditions(self.url.is_entry))
    }

    /// The row that was named is judged.
    pub fn not_replaced(&self) -> Question<'_> {
        Question {
            lacks: &self.lacks_named,
            conditions: self.conditions(self.named.is_entry),
        }
    }

    /// It is no entry.
    pub fn no_entry(&self) -> Question<'_> {
        self.ask(self.conditions(false))
    }

    /// It is an entry where the row that was named is one.
    pub fn entry_as_named(&self) -> Question<'_> {
        self.ask(self.conditions(self.named.is_entry))
    }

    pub fn as_load(&self) -> Question<'_> {
        self.ask(LOAD)
    }

    pub fn as_redirect(&self) -> Question<'_> {
        match self.url.is_entry {
            true => self.ask(REDIRECT & !WRITERS),
            false => self.ask(REDIRECT),
        }
    }

    /// Nothing is asked.
    pub fn left_out(&self) -> Question<'_> {
        self.ask(0)
    }

    /// Whether the connection lacks something in one of these conditions.
    pub fn is_lacking(&self, connection: usize, conditions: u8) -> bool {
        self.lacks[connection] & conditions != 0
    }
}

/// The URLs of a journey in order.
pub struct Stops<'a>(pub Vec<Stop<'a>>);

impl<'u> Stops<'u> {
    pub fn of(journey: &'u Journey) -> Stops<'u> {
        let count = journey.urls.len();
        let stops = journey.urls.iter().enumerate().map(|(place, &number)| {
            let (url, named) = (journey.url(place), journey.policy.known_url(number));
            Stop {
                part: Part::of(place, count),
                url,
                named,
                is_replaced: journey.upgraded(place) != number,
                lacks: lacks(&journey.policy, url),
                lacks_named: lacks(&journey.policy, named),
            }
        });
        Stops(stops.collect())
    }

    /// The connections that pass each question, as bits.
    pub fn carriers<'a>(&'a self, ask: impl Fn(&'a Stop<'u>) -> Question<'a>) -> u32 {
        let asked = self.0.iter().map(|stop| ask(stop).passes());
        asked.fold(u32::MAX, |carriers, passed| carriers & passed)
    }

    /// The lowest of them, or 32.
    pub fn lowest<'a>(&'a self, ask: impl Fn(&'a Stop<'u>) -> Question<'a>) -> u32 {
        self.carriers(ask).trailing_zeros()
    }

    /// The lowest where these parts are asked something else.
    pub fn lowest_if<'a>(
        &'a self,
        parts: &[Part],
        ask: impl Fn(&'a Stop<'u>) -> Question<'a>,
    ) -> u32 {
        self.lowest(|stop| match parts.contains(&stop.part) {
            true => ask(stop),
            false => stop.judged(),
        })
    }
}

fn lacks(policy: &Policy, url: &Url) -> Lacks {
    let mut lacks = [0; CONNECTIONS];
    for (number, lacks) in lacks.iter_mut().enumerate() {
        *lacks = lacking(policy.connection(number), url);
    }
    lacks
}

fn lacking(tag: &ConnectionTag, url: &Url) -> u8 {
    let conditions = [
        (EVENT, tag.readers.holds(url.event_endpoint())),
        (READERS, tag.readers_fit(url)),
        (MESSAGE, tag.writers_fit(url)),
        (WRITERS, tag.writers.within(url.writers)),
    ];
    let failing = conditions.into_iter().filter(|(_, holds)| !holds);
    failing.fold(0, |lacking, (condition, _)| lacking | condition)
}
