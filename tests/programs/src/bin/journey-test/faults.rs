//! The test can fail: finders with a single fault each are told.

use cases::guarded::{flip, Guarded};
use cases::labels::{
    upgraded, within, Connection, Url, CONNECTIONS, ENTRY, HTTPS_HOSTS_AT, NO_PARTNER, PARTNERS_AT,
    URLS,
};
use programs::program::Program;
use programs::wrong::UNCHECKED;
use programs::{suite, Kind as _};
use reference::numbers::{ACCEPTED, POLICY_BAD};
use reference::{Found, JOURNEY_BAD, JOURNEY_URLS, NO_CONNECTION};

use crate::checker::{self, Checker, Finder, Lent};
use crate::input::Kind;
use crate::stops;
use crate::Journeys;

/// The first difference that a few cases find.
pub fn first_difference(finder: Finder, program: Option<Program>) -> Option<String> {
    first_difference_of(Checker::new(finder, Box::new(stops::library)), program)
}

pub fn first_difference_of(checker: Checker, program: Option<Program>) -> Option<String> {
    let mut journeys = Journeys { checker, program };
    suite::first_difference(&mut journeys, 8 * Kind::CYCLE).expect("the program can be run")
}

pub fn honest(lent: &mut Lent) -> Found {
    reference::journey_find(lent.policy.inside(), lent.urls.inside())
}

fn assert_told(finder: Finder, what: &str) {
    let told = first_difference(finder, None).expect("the fault is found");
    assert!(told.starts_with(&format!("library: {what}")), "{told}");
}

/// A finder that answers something else than it should.
fn answering(change: fn(Found) -> Found) -> Finder {
    Box::new(move |lent| change(honest(lent)))
}

/// A finder that answers another number for some journeys that are refused or found.
fn numbering(found: Found, journeys: fn(&[u8]) -> bool) -> Finder {
    Box::new(move |lent| match journeys(lent.urls.inside()) {
        true => found,
        false => honest(lent),
    })
}

/// A finder that is right about another journey than it was given.
fn travelling(change: fn(&[u8]) -> Vec<u8>) -> Finder {
    Box::new(move |lent| {
        let urls = change(lent.urls.inside());
        reference::journey_find(lent.policy.inside(), &urls)
    })
}

/// A finder that is right about another policy than it was given, where nothing is refused.
fn governed(change: fn(&mut [u32])) -> Finder {
    Box::new(move |lent| match honest(lent) {
        found if found.number == ACCEPTED => {
            let mut policy = lent.policy.inside().to_vec();
            change(&mut policy);
            reference::journey_find(&policy, lent.urls.inside())
        }
        found => found,
    })
}

/// A finder that answers right, and then does something more.
fn spoiling(spoil: fn(&mut Lent)) -> Finder {
    Box::new(move |lent| {
        let found = honest(lent);
        spoil(lent);
        found
    })
}

/// One URL of a journey, as a connection is asked for it.
#[derive(Clone, Copy)]
struct Leg {
    connection: Connection,
    /// The row that is named, and the one that is asked for.
    named: Url,
    url: Url,
    place: usize,
    /// How many URLs the journey has.
    of: usize,
}

impl Leg {
    fn is_taken(self) -> bool {
        match self.place {
            0 => self.connection.fits(self.url),
            _ => self.connection.redirects_to(self.url),
        }
    }
}

/// What a finder does with what is not refused: the connections in the order in which it asks them, and what it asks of each URL.
struct Search {
    connections: fn() -> Vec<u8>,
    takes: Box<dyn Fn(Leg) -> bool>,
}

/// A finder that searches in its own way.
fn searching(search: Search) -> Finder {
    Box::new(move |lent| match honest(lent) {
        found if found.number == ACCEPTED => Found {
            number: ACCEPTED,
            connection: search.lowest(lent.policy.inside(), lent.urls.inside()),
        },
        found => found,
    })
}

fn asking(takes: fn(Leg) -> bool) -> Finder {
    searching(Search {
        connections: all,
        takes: Box::new(takes),
    })
}

/// A finder that asks after something was given to connection or URL.
fn giving(give: fn(&mut Leg)) -> Finder {
    searching(Search {
        connections: all,
        takes: Box::new(move |mut leg| {
            give(&mut leg);
            leg.is_taken()
        }),
    })
}

fn among(connections: fn() -> Vec<u8>) -> Finder {
    searching(Search {
        connections,
        takes: Box::new(Leg::is_taken),
    })
}

fn all() -> Vec<u8> {
    (0..CONNECTIONS as u8).collect()
}

impl Search {
    fn lowest(&self, policy: &[u32], urls: &[u8]) -> u32 {
        let carries = |&connection: &u8| {
            let legs = urls.iter().enumerate().map(|(place, &url)| Leg {
                connection: Connection::of(policy, connection),
                named: Url::of(policy, url),
                url: Url::of(policy, upgraded(policy, url)),
                place,
                of: urls.len(),
            });
            legs.into_iter().all(&self.takes)
        };
        let lowest = (self.connections)().into_iter().find(carries);
        lowest.map_or(NO_CONNECTION, u32::from)
    }
}

#[test]
fn honest_finders_are_passed() {
    assert_eq!(first_difference(Box::new(honest), None), None);
    assert_eq!(first_difference(Box::new(checker::library), None), None);
    assert_eq!(first_difference(asking(Leg::is_taken), None), None);
}

const fn found(number: u32, connection: u32) -> Found {
    Found { number, connection }
}

#[test]
fn a_wrong_number_is_told() {
    let other = |from: u32, to: u32| -> Finder {
        Box::new(move |lent| match honest(lent) {
            it if it.number == from => found(to, it.connection),
            it => it,
        })
    };
    assert_told(other(POLICY_BAD, JOURNEY_BAD), "number");
    assert_told(other(JOURNEY_BAD, POLICY_BAD), "number");
    assert_told(other(JOURNEY_BAD, 6), "number");
    let none_is_refused = answering(|it| match it.connection {
        NO_CONNECTION => found(JOURNEY_BAD, 0),
        _ => it,
    });
    assert_told(none_is_refused, "number");
    let journey_first: Finder = Box::new(|lent| match lent.urls.inside().len() {
        1..=JOURNEY_URLS => honest(lent),
        _ => found(JOURNEY_BAD, 0),
    });
    assert_told(journey_first, "number");
}

#[test]
fn a_journey_of_another_length_is_told() {
    let refused = found(JOURNEY_BAD, 0);
    assert_told(numbering(refused, |urls| urls.len() == 1), "number");
    let not_16 = |urls: &[u8]| urls.len() == JOURNEY_URLS;
    assert_told(numbering(refused, not_16), "number");
    let empty_is_carried = |urls: &[u8]| urls.is_empty();
    assert_told(numbering(found(ACCEPTED, 0), empty_is_carried), "number");
    assert_told(travelling(|urls| first(urls, JOURNEY_URLS)), "number");
    let not_17 = |urls: &[u8]| match urls.len() == JOURNEY_URLS + 1 {
        true => first(urls, JOURNEY_URLS),
        false => urls.to_vec(),
    };
    assert_told(travelling(not_17), "number");
    let eight_bits = |urls: &[u8]| first(urls, urls.len() % 256);
    assert_told(travelling(eight_bits), "number");
}

fn first(urls: &[u8], most: usize) -> Vec<u8> {
    urls[..urls.len().min(most)].to_vec()
}

#[test]
fn a_number_without_a_row_that_is_taken_is_told() {
    let six_bits = |urls: &[u8]| urls.iter().map(|url| url % URLS as u8).collect();
    assert_told(travelling(six_bits), "number");
    let seven_bits = |urls: &[u8]| urls.iter().map(|url| url & 0x7f).collect();
    assert_told(travelling(seven_bits), "number");
    let passed_over = |urls: &[u8]| {
        let kept = urls.iter().filter(|url| usize::from(**url) < URLS);
        kept.copied().collect()
    };
    assert_told(travelling(passed_over), "number");
    let last_not_asked: Finder = Box::new(|lent| {
        let urls = lent.urls.inside();
        let front = &urls[..urls.len().saturating_sub(1)];
        match reference::journey_find(lent.policy.inside(), front) {
            it if it.number == ACCEPTED && honest(lent).number == JOURNEY_BAD => it,
            _ => honest(lent),
        }
    });
    assert_told(last_not_asked, "number");
    let empty_row: Finder = Box::new(|lent| {
        let honest = honest(lent);
        let urls = lent.urls.inside();
        let is_long = urls.is_empty() || urls.len() > JOURNEY_URLS;
        let is_above = urls.iter().any(|url| usize::from(*url) >= URLS);
        match honest.number == JOURNEY_BAD && !is_long && !is_above {
            true => found(ACCEPTED, NO_CONNECTION),
            false => honest,
        }
    });
    assert_told(empty_row, "number");
}

#[test]
fn another_connection_is_told() {
    assert_told(among(|| all().into_iter().rev().collect()), "connection");
    assert_told(among(|| (0..31).collect()), "connection");
    assert_told(among(|| (1..32).collect()), "connection");
    assert_told(among(|| (0..16).collect()), "connection");
    assert_told(among(|| (0..32).step_by(2).collect()), "connection");
    assert_told(among(|| (0..32).filter(|it| *it != 17).collect()), "conn");
    let last_for_none = answering(|it| found(it.number, it.connection.min(31)));
    assert_told(last_for_none, "connection");
    let another_none = answering(|it| match it.connection {
        NO_CONNECTION => found(ACCEPTED, u32::MAX),
        _ => it,
    });
    assert_told(another_none, "connection");
    let refused_with_none = answering(|it| match it.number {
        ACCEPTED => it,
        number => found(number, NO_CONNECTION),
    });
    assert_told(refused_with_none, "connection");
}

#[test]
fn a_search_that_stops_early_is_told() {
    let first_alone = asking(|leg| leg.place > 0 || leg.is_taken());
    assert_told(first_alone, "connection");
    let not_first = asking(|leg| leg.place == 0 || leg.is_taken());
    assert_told(not_first, "connection");
    let not_last = asking(|leg| leg.place + 1 == leg.of && leg.of > 1 || leg.is_taken());
    assert_told(not_last, "connection");
    let not_sixteenth = asking(|leg| leg.place == JOURNEY_URLS - 1 || leg.is_taken());
    assert_told(not_sixteenth, "connection");
    let ends_alone = asking(|leg| leg.place > 0 && leg.place + 1 < leg.of || leg.is_taken());
    assert_told(ends_alone, "connection");
}

#[test]
fn a_load_for_a_redirect_is_told() {
    assert_told(asking(|leg| leg.connection.fits(leg.url)), "connection");
    let all_redirects = asking(|leg| leg.connection.redirects_to(leg.url));
    assert_told(all_redirects, "connection");
    let last_is_load = asking(|leg| match leg.place + 1 == leg.of {
        true => leg.connection.fits(leg.url),
        false => leg.is_taken(),
    });
    assert_told(last_is_load, "connection");
}

#[test]
fn a_condition_that_is_not_asked_is_told() {
    // What is asked for is given first.
    let not_asked: [fn(&mut Leg); 4] = [
        |leg| leg.connection.readers |= leg.url.event(),
        |leg| leg.connection.writers |= leg.url.message(),
        |leg| leg.url.readers = u32::MAX,
        |leg| leg.url.writers = u32::MAX,
    ];
    for give in not_asked {
        assert_told(giving(give), "connection");
    }
}

#[test]
fn a_condition_that_is_asked_otherwise_is_told() {
    let script_readers = giving(|leg| leg.connection.readers = leg.connection.script_readers);
    assert_told(script_readers, "connection");
    let event_for_message = asking(|leg| {
        let is_written = within(leg.url.event(), leg.connection.writers);
        leg.is_taken() && is_written
    });
    assert_told(event_for_message, "connection");
    let load_by_writers = asking(|leg| {
        let is_written = within(leg.connection.writers, leg.url.writers);
        leg.is_taken() && (leg.place > 0 || is_written)
    });
    assert_told(load_by_writers, "connection");
    assert_told(giving(|leg| leg.url.readers |= 1 << 31), "connection");
    assert_told(giving(|leg| leg.url.writers |= 1 << 31), "connection");
    assert_told(giving(|leg| leg.url.readers |= 1), "connection");
    assert_told(giving(|leg| leg.url.writers |= 1), "connection");
}

#[test]
fn partners_that_are_not_respected_are_told() {
    let not_asked = governed(|policy| {
        policy[HTTPS_HOSTS_AT] = 0;
        policy[PARTNERS_AT..].fill(NO_PARTNER);
    });
    assert_told(not_asked, "connection");
    let not_first = asking(|leg| named_if(leg, leg.place == 0).is_taken());
    assert_told(not_first, "connection");
    let first_alone = asking(|leg| named_if(leg, leg.place > 0).is_taken());
    assert_told(first_alone, "connection");
    let both = asking(|leg| leg.is_taken() && named_if(leg, true).is_taken());
    assert_told(both, "connection");
    let either = asking(|leg| leg.is_taken() || named_if(leg, true).is_taken());
    assert_told(either, "connection");
}

/// The row that is named is asked for.
fn named_if(leg: Leg, is_named: bool) -> Leg {
    match is_named {
        true => Leg {
            url: leg.named,
            ..leg
        },
        false => leg,
    }
}

#[test]
fn entries_that_are_not_respected_are_told() {
    let no_entry = governed(|policy| {
        let words = policy[..3 * URLS].iter_mut().step_by(3);
        words
            .filter(|word| **word < 2 * ENTRY)
            .for_each(|word| *word %= ENTRY);
    });
    assert_told(no_entry, "connection");
    let all_entries = giving(|leg| leg.url.word = ENTRY + leg.url.address());
    assert_told(all_entries, "connection");
    let by_the_named = giving(|leg| {
        let entry = if leg.named.is_entry() { ENTRY } else { 0 };
        leg.url.word = leg.url.address() + entry;
    });
    assert_told(by_the_named, "connection");
    let last_is_none = giving(|leg| {
        if leg.place + 1 == leg.of {
            leg.url.word = leg.url.address();
        }
    });
    assert_told(last_is_none, "connection");
}

#[test]
fn an_entry_that_is_excused_from_more_is_told() {
    let of_readers = giving(|leg| {
        if leg.url.is_entry() && leg.place > 0 {
            leg.url.readers = u32::MAX;
        }
    });
    assert_told(of_readers, "connection");
    let of_its_message = giving(|leg| {
        if leg.url.is_entry() && leg.place > 0 {
            leg.connection.writers |= leg.url.message();
        }
    });
    assert_told(of_its_message, "connection");
    let of_its_event = giving(|leg| {
        if leg.url.is_entry() && leg.place > 0 {
            leg.connection.readers |= leg.url.event();
        }
    });
    assert_told(of_its_event, "connection");
}

#[test]
fn a_policy_that_is_not_checked_is_told() {
    for taken in UNCHECKED {
        let finder: Finder = Box::new(move |lent| {
            let policy = taken(lent.policy.inside());
            reference::journey_find(&policy, lent.urls.inside())
        });
        assert_told(finder, "number");
    }
}

#[test]
fn a_touched_buffer_and_a_broken_guard_are_told() {
    let spoil_policy = spoiling(|lent| flip(lent.policy.inside_mut().last_mut()));
    assert_told(spoil_policy, "policy");
    let spoil_urls = spoiling(|lent| flip(lent.urls.inside_mut().first_mut()));
    assert_told(spoil_urls, "journey");
    let before = spoiling(|lent| Guarded::flip_before(&mut lent.urls));
    assert_told(before, "guard before the journey");
    let behind = spoiling(|lent| Guarded::flip_behind(&mut lent.policy));
    assert_told(behind, "guard behind the policy");
}

#[test]
fn a_panic_is_told() {
    assert_told(Box::new(|_| panic!("as it should")), "panicked");
}
