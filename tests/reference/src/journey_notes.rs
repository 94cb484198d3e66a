//! What is particular about a search that is not refused. For the events
//! alone: nothing is decided here.

use crate::journey::{Failure, Journey, JOURNEY_URLS, NO_CONNECTION};
use crate::journey_change_notes;
use crate::journey_seen::JourneyEvent::{self, *};
use crate::journey_seen::JourneySeen;
use crate::journey_stops::{Part, Stop, Stops};
use crate::layout::CONNECTIONS;
use crate::numbers::READERS_FORBID;

/// Notes what is particular about a journey for which this connection, or none,
/// is told.
pub fn note(journey: &Journey, told: u32, seen: &mut JourneySeen) {
    let stops = Stops::of(journey);
    debug_assert_eq!(stops.lowest(Stop::judged), told);
    note_told(&stops, told, seen);
    note_urls(journey, seen);
    note_twice(journey, seen);
    note_failures(journey, &stops, told, seen);
    note_takers(&stops, told, seen);
    match told {
        NO_CONNECTION => note_none(journey, &stops, seen),
        _ => note_found(journey, &stops, told as usize, seen),
    }
    journey_change_notes::note(&stops, told, seen);
}

/// Notes each event that occurs.
pub fn note_all(seen: &mut JourneySeen, events: &[(JourneyEvent, bool)]) {
    seen.note_all(events);
}

/// What is told, and for how many URLs.
fn note_told(stops: &Stops, told: u32, seen: &mut JourneySeen) {
    seen.note(match told {
        0 => Found0,
        1..=30 => FoundBetween,
        31 => Found31,
        _ => FoundNone,
    });
    seen.note(match (stops.0.len(), told) {
        (1, NO_CONNECTION) => None1,
        (JOURNEY_URLS, NO_CONNECTION) => None16,
        (_, NO_CONNECTION) => None2,
        (1, _) => Length1,
        (JOURNEY_URLS, _) => Length16,
        (_, _) => Length2,
    });
}

fn note_urls(journey: &Journey, seen: &mut JourneySeen) {
    let any_address =
        |address| (0..journey.urls.len()).any(|place| journey.url(place).address == address);
    let replaced_by = |partner| {
        let is_partner = |&number: &usize| journey.policy.partner(number) == Some(partner);
        journey.urls.iter().any(is_partner)
    };
    note_all(
        seen,
        &[
            (Url0, journey.urls.contains(&0)),
            (Url63, journey.urls.contains(&63)),
            (Address0, any_address(0)),
            (Address31, any_address(31)),
            (PartnerIs0, replaced_by(0)),
            (PartnerIs63, replaced_by(63)),
        ],
    );
}

/// What stands in the journey more than once.
fn note_twice(journey: &Journey, seen: &mut JourneySeen) {
    let urls = &journey.urls;
    let is_apart = |(place, url): (usize, &usize)| {
        let later = urls[place..].iter().rposition(|other| other == url);
        later.is_some_and(|later| urls[place..][..later].iter().any(|other| other != url))
    };
    let stands = |partner| urls.contains(&partner);
    let is_apart_anywhere = urls.iter().enumerate().any(is_apart);
    let is_other = |url: &usize| *url != urls[0];
    note_all(
        seen,
        &[
            (TwiceNext, urls.windows(2).any(|pair| pair[0] == pair[1])),
            (TwiceApart, is_apart_anywhere),
            (
                TwiceReturns,
                urls.last() == urls.first() && urls.iter().any(is_other),
            ),
            (
                TwicePartner,
                urls.iter()
                    .any(|&url| journey.policy.partner(url).is_some_and(stands)),
            ),
        ],
    );
}

/// Where and why lower connections fail.
fn note_failures(journey: &Journey, stops: &Stops, told: u32, seen: &mut JourneySeen) {
    for connection in 0..told as usize {
        let failure = journey.first_failure(connection);
        let failure = failure.expect("a lower connection does not carry the journey");
        let stop = &stops.0[failure.place];
        seen.note(failing(&failure, stop.part));
        let is_further_entry = failure.place > 0 && stop.url.is_entry;
        let is_first_again = journey.upgraded(failure.place) == journey.upgraded(0);
        let [is_event, is_readers, is_message, _] = conditions(&failure);
        note_all(
            seen,
            &[
                (FailEntryEvent, is_further_entry && is_event),
                (FailEntryReaders, is_further_entry && is_readers),
                (FailEntryMessage, is_further_entry && is_message),
                (FailAgain, failure.place > 0 && is_first_again),
                (Tells0, failure.missing == 0),
                (Tells31, failure.missing == 31),
            ],
        );
    }
}

/// Which of the conditions of a redirect it is, in the order in which they are
/// asked. A load has the second and the third.
fn conditions(failure: &Failure) -> [bool; 4] {
    let is_readers = failure.number == READERS_FORBID;
    [
        is_readers && !failure.of_url,
        is_readers && failure.of_url,
        !is_readers && !failure.of_url,
        !is_readers && failure.of_url,
    ]
}

fn failing(failure: &Failure, part: Part) -> JourneyEvent {
    let events = match part {
        Part::First => [
            FailLoadReaders,
            FailLoadReaders,
            FailLoadMessage,
            FailLoadMessage,
        ],
        Part::Middle => [
            FailMiddleEvent,
            FailMiddleReaders,
            FailMiddleMessage,
            FailMiddleWriters,
        ],
        Part::Last => [
            FailLastEvent,
            FailLastReaders,
            FailLastMessage,
            FailLastWriters,
        ],
    };
    let is_failing = conditions(failure).into_iter().position(|is| is);
    events[is_failing.expect("one of the conditions fails")]
}

/// Who takes the first URL, and who carries all.
fn note_takers(stops: &Stops, told: u32, seen: &mut JourneySeen) {
    let takes_first = stops.0[0].judged().passes().trailing_zeros();
    let is_none = told == NO_CONNECTION;
    let carriers = stops.carriers(Stop::judged).count_ones();
    note_all(
        seen,
        &[
            (TakesFirst, !is_none && takes_first < told),
            (TakesFirstNone, is_none && takes_first < told),
            (CarriedByOne, carriers == 1),
            (
                CarriedBySeveral,
                (2..CONNECTIONS as u32).contains(&carriers),
            ),
            (CarriedByAll, carriers == CONNECTIONS as u32),
        ],
    );
}

/// What is particular where none is told.
fn note_none(journey: &Journey, stops: &Stops, seen: &mut JourneySeen) {
    let is_taken_by_none = |stop: &&Stop| stop.judged().passes() == 0;
    let not_taken: Vec<_> = stops.0.iter().filter(is_taken_by_none).collect();
    let is_just = |part| matches!(not_taken[..], [stop] if stop.part == part);
    let place = |connection| {
        journey
            .first_failure(connection)
            .map(|failure| failure.place)
    };
    let is_apart = (1..CONNECTIONS).any(|connection| place(connection) != place(0));
    note_all(
        seen,
        &[
            (NoneEach, not_taken.is_empty()),
            (NoneFirst, stops.0.len() > 1 && is_just(Part::First)),
            (NoneMiddle, is_just(Part::Middle)),
            (NoneLast, is_just(Part::Last)),
            (NoneApart, is_apart),
        ],
    );
}

/// What is particular about the journey for the connection that is told.
fn note_found(journey: &Journey, stops: &Stops, told: usize, seen: &mut JourneySeen) {
    let first_host = journey.url(0).host();
    let is_other = |stop: &Stop| stop.url.host() != first_host;
    let is_several = stops.0.iter().any(is_other);
    let tag = journey.policy.connection(told);
    note_all(
        seen,
        &[
            (OneHost, stops.0.len() > 1 && !is_several),
            (SeveralHosts, is_several),
            (NoReaders, tag.readers.is_empty()),
        ],
    );
    journey_change_notes::note_first(&stops.0[0], told, seen);
}
