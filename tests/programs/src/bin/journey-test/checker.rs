//! Finds a connection by the library and twice by the reference, and where each connection stops by both, and compares.

use std::panic::{catch_unwind, AssertUnwindSafe};

use cases::difference::{Difference, Subject};
use cases::guarded::Guarded;
use cases::journey::Given;
use cases::{events, Random};
use reference::numbers::ACCEPTED;
use reference::{
    journey_find_fast, journey_noting, Found, JourneyEvent, JourneySeen, NO_CONNECTION,
};
use zolherima::journeys;

use crate::stops::{self, Stopped, Stopper};

/// Policy and journey, as they are lent.
#[derive(Default)]
pub struct Lent {
    pub policy: Guarded<u32>,
    pub urls: Guarded<u8>,
}

/// A finder that is held to the reference.
pub type Finder = Box<dyn Fn(&mut Lent) -> Found>;

/// The proved library. Its binding tells a refusal by its number alone.
pub fn library(lent: &mut Lent) -> Found {
    match journeys::find(lent.policy.inside(), lent.urls.inside()) {
        Ok(connection) => Found {
            number: ACCEPTED,
            connection: connection.unwrap_or(NO_CONNECTION),
        },
        Err(refusal) => Found {
            number: refusal.number(),
            connection: 0,
        },
    }
}

pub struct Checker {
    finder: Finder,
    stopper: Stopper,
    lent: Lent,
    own: Lent,
    seen: JourneySeen,
}

/// What came of a journey.
pub struct Compared {
    pub expected: Found,
    /// Nothing where the finder panicked.
    pub found: Option<Found>,
    pub verdict: Result<(), String>,
}

impl Checker {
    /// Checks the proved library, or what a test puts in its place.
    pub fn new(finder: Finder, stopper: Stopper) -> Checker {
        Checker {
            finder,
            stopper,
            lent: Lent::default(),
            own: Lent::default(),
            seen: JourneySeen::new(),
        }
    }

    pub fn check(&mut self, given: &Given, random: &Random) -> Compared {
        self.lay(given, random);
        let expected = journey_noting(&given.policy, &given.urls, &mut self.seen);
        // One that panics has failed too, and its journey is wanted.
        let told = catch_unwind(AssertUnwindSafe(|| self.ask())).ok();
        let verdict = match &told {
            Some((found, stops)) => self
                .compare(given, &expected, found)
                .and_then(|()| compare_stops(given, stops))
                .map_err(|difference| difference.to_string()),
            None => Err("library: panicked".to_string()),
        };
        Compared {
            expected,
            found: told.map(|(found, _)| found),
            verdict,
        }
    }

    /// For a connection, and where each stops.
    fn ask(&mut self) -> (Found, Vec<Stopped>) {
        let Checker {
            finder,
            stopper,
            own,
            ..
        } = self;
        let found = finder(own);
        let connections = stops::connections().into_iter();
        let stops = connections.map(|connection| stopper(own, connection));
        (found, stops.collect())
    }

    /// In memory of just their lengths, where valgrind sees a read past an end, or between guards.
    fn lay(&mut self, given: &Given, random: &Random) {
        let Lent { policy, urls } = &mut self.lent;
        if random.one_in(4) {
            policy.lay_bare(&given.policy);
            urls.lay_bare(&given.urls);
        } else {
            policy.lay(&given.policy, random);
            urls.lay(&given.urls, random);
        }
        self.own.policy.copy(&self.lent.policy);
        self.own.urls.copy(&self.lent.urls);
    }

    fn compare(&self, given: &Given, expected: &Found, found: &Found) -> Result<(), Difference> {
        let library = Subject("library");
        same(library, expected, found)?;
        library.kept("policy", &self.lent.policy, &self.own.policy)?;
        library.kept("journey", &self.lent.urls, &self.own.urls)?;
        let fast = journey_find_fast(&given.policy, &given.urls);
        same(Subject("fast reference"), expected, &fast)
    }

    /// Every event, and how often it was seen.
    pub fn events(&self) -> Vec<events::Counted> {
        let counted = |event: JourneyEvent| (event.name(), self.seen.count(event));
        JourneyEvent::ALL.into_iter().map(counted).collect()
    }
}

fn compare_stops(given: &Given, stops: &[Stopped]) -> Result<(), Difference> {
    Subject("library").gave(
        "stops",
        stops::expected(given).as_flattened(),
        stops.as_flattened(),
    )
}

fn same(subject: Subject, expected: &Found, found: &Found) -> Result<(), Difference> {
    let one = |what, expected: u32, found: u32| subject.gave(what, &[expected], &[found]);
    one("number", expected.number, found.number)?;
    one("connection", expected.connection, found.connection)
}
