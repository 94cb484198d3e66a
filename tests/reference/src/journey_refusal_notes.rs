//! What is particular about a search that is refused. For the events alone:
//! nothing is decided here.

use crate::journey::{journey_find, JOURNEY_URLS, NO_CONNECTION};
use crate::journey_notes::note_all;
use crate::journey_seen::JourneyEvent::*;
use crate::journey_seen::JourneySeen;
use crate::journey_stops::Part;
use crate::layout::{NO_ADDRESS, POLICY_WORDS, URLS};
use crate::numbers::POLICY_BAD;

/// Notes what is particular about a search that is refused with this number.
pub fn note(number: u32, policy: &[u32], urls: &[u8], seen: &mut JourneySeen) {
    match number {
        POLICY_BAD => note_policy(policy, urls, seen),
        _ => note_journey(policy, urls, seen),
    }
}

fn is_above(number: u8) -> bool {
    usize::from(number) >= URLS
}

/// The row is empty, of a policy that has 609 words.
fn is_empty(number: u8, policy: &[u32]) -> bool {
    !is_above(number) && policy[3 * usize::from(number)] == NO_ADDRESS
}

fn note_policy(policy: &[u32], urls: &[u8], seen: &mut JourneySeen) {
    let words = policy.len();
    let is_length_bad = urls.is_empty() || urls.len() > JOURNEY_URLS;
    let is_any_above = urls.iter().any(|&url| is_above(url));
    let is_any_empty = words == POLICY_WORDS && urls.iter().any(|&url| is_empty(url, policy));
    let is_good = !is_length_bad && !is_any_above && !is_any_empty;
    note_all(
        seen,
        &[
            (PolicyNone, words == 0),
            (PolicyShort, (1..POLICY_WORDS).contains(&words)),
            (PolicyLong, words > POLICY_WORDS),
            (PolicyAlone, words == POLICY_WORDS && is_good),
            (PolicyThenLength, is_length_bad),
            (PolicyThenAbove, is_any_above),
            (PolicyThenEmpty, is_any_empty),
        ],
    );
}

fn note_journey(policy: &[u32], urls: &[u8], seen: &mut JourneySeen) {
    let has_no_row = |url: &u8| is_above(*url) || is_empty(*url, policy);
    let no_row = urls.iter().position(has_no_row);
    match no_row {
        _ if urls.is_empty() => {}
        _ if urls.len() > JOURNEY_URLS => note_long(policy, urls, no_row, seen),
        None => {}
        Some(place) => note_no_row(policy, urls, place, seen),
    }
}

/// Whether a connection carries a part of the journey.
fn is_carried(policy: &[u32], urls: &[u8]) -> bool {
    let found = journey_find(policy, urls);
    found.number == 0 && found.connection < NO_CONNECTION
}

fn note_long(policy: &[u32], urls: &[u8], no_row: Option<usize>, seen: &mut JourneySeen) {
    let length = urls.len();
    note_all(
        seen,
        &[
            (Journey17, length == 17),
            (JourneyLonger, (18..256).contains(&length)),
            (JourneyLongest, length > 255),
            (
                JourneyLongCarried,
                is_carried(policy, &urls[..JOURNEY_URLS]),
            ),
            (JourneyLongNoRow, no_row.is_some()),
        ],
    );
}

/// The number at this place is the first without a row.
fn note_no_row(policy: &[u32], urls: &[u8], place: usize, seen: &mut JourneySeen) {
    let is_any_above = urls.iter().any(|&url| is_above(url));
    let is_any_empty = urls.iter().any(|&url| is_empty(url, policy));
    let wraps = |&url: &u8| is_above(url) && !is_empty(url % URLS as u8, policy);
    let before = &urls[..place];
    note_all(
        seen,
        &[
            (Number64, urls.contains(&64)),
            (Number255, urls.contains(&255)),
            (NumberWraps, urls.iter().any(wraps)),
            (NoRowBoth, is_any_above && is_any_empty),
            (NoRowSingle, urls.len() == 1),
            (NoRowBehindCarried, place > 0 && is_carried(policy, before)),
            (NoRowBehindNone, place > 0 && !is_carried(policy, before)),
        ],
    );
    seen.note(match (Part::of(place, urls.len()), is_above(urls[place])) {
        (Part::First, true) => AboveFirst,
        (Part::Middle, true) => AboveMiddle,
        (Part::Last, true) => AboveLast,
        (Part::First, false) => EmptyFirst,
        (Part::Middle, false) => EmptyMiddle,
        (Part::Last, false) => EmptyLast,
    });
}
