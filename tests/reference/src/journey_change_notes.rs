//! What would have been told if a journey were judged otherwise. For the events
//! alone: nothing is decided here.

use crate::journey::{JOURNEY_URLS, NO_CONNECTION};
use crate::journey_notes::note_all;
use crate::journey_seen::JourneyEvent::*;
use crate::journey_seen::JourneySeen;
use crate::journey_stops::{Part, Stop, Stops, EVENT, MESSAGE, READERS, WRITERS};

const FIRST: &[Part] = &[Part::First];
const MIDDLE: &[Part] = &[Part::Middle];
const LAST: &[Part] = &[Part::Last];
const FURTHER: &[Part] = &[Part::Middle, Part::Last];

/// Notes what would have been told in place of this connection, or none.
pub fn note(stops: &Stops, told: u32, seen: &mut JourneySeen) {
    note_left_out(stops, told, seen);
    note_conditions(stops, told, seen);
    note_kinds(stops, told, seen);
    note_partners(stops, told, seen);
    note_entries(stops, told, seen);
}

/// What is not asked of the first URL, for the connection that is told.
pub fn note_first(first: &Stop, told: usize, seen: &mut JourneySeen) {
    let lacks_writers = first.is_lacking(told, WRITERS);
    note_all(
        seen,
        &[
            (FirstNoEvent, first.is_lacking(told, EVENT)),
            (FirstNoWriters, lacks_writers && !first.url.is_entry),
            (EntryFirstWriters, lacks_writers && first.url.is_entry),
        ],
    );
}

/// Without some of the URLs a lower connection would be told: it fails on these
/// alone.
fn note_left_out(stops: &Stops, told: u32, seen: &mut JourneySeen) {
    let is_without = |parts| stops.lowest_if(parts, Stop::left_out) < told;
    let (is_none, is_several) = (told == NO_CONNECTION, stops.0.len() > 1);
    let is_first = is_several && is_without(FIRST);
    let (is_middle, is_last) = (is_without(MIDDLE), is_without(LAST));
    let is_0 = stops.lowest_if(LAST, Stop::left_out) == 0;
    note_all(
        seen,
        &[
            (FirstOnly, is_first && !is_none),
            (FirstOnlyNone, is_first && is_none),
            (MiddleOnly, is_middle && !is_none),
            (MiddleOnlyNone, is_middle && is_none),
            (LastOnly, is_last && !is_none),
            (LastOnlyNone, is_last && is_none),
            (LastOnly0, is_last && is_0 && !is_none),
            (LastOnly16, is_last && stops.0.len() == JOURNEY_URLS),
        ],
    );
}

/// Without one of the conditions a lower connection would be told.
fn note_conditions(stops: &Stops, told: u32, seen: &mut JourneySeen) {
    let is_needed = |parts, condition| {
        let lowest = stops.lowest_if(parts, |stop| stop.judged().but_for(condition));
        lowest < told
    };
    note_all(
        seen,
        &[
            (NeedsLoadReaders, is_needed(FIRST, READERS)),
            (NeedsLoadMessage, is_needed(FIRST, MESSAGE)),
            (NeedsEvent, is_needed(FURTHER, EVENT)),
            (NeedsReaders, is_needed(FURTHER, READERS)),
            (NeedsMessage, is_needed(FURTHER, MESSAGE)),
            (NeedsWriters, is_needed(FURTHER, WRITERS)),
        ],
    );
}

/// Further URLs are judged as loads, or the first one as a redirect.
fn note_kinds(stops: &Stops, told: u32, seen: &mut JourneySeen) {
    let as_load = |parts| stops.lowest_if(parts, Stop::as_load);
    let is_none = told == NO_CONNECTION;
    note_all(
        seen,
        &[
            (MiddleAsLoad, as_load(MIDDLE) < told),
            (LastAsLoad, as_load(LAST) < told),
            (NoneAsLoad, is_none && as_load(FURTHER) < told),
            (
                FirstAsRedirect,
                stops.lowest_if(FIRST, Stop::as_redirect) > told,
            ),
        ],
    );
}

/// URLs are not replaced by their partners.
fn note_partners(stops: &Stops, told: u32, seen: &mut JourneySeen) {
    let is_any = |part| {
        let mut of_part = stops.0.iter().filter(|stop| stop.part == part);
        of_part.any(|stop| stop.is_replaced)
    };
    let not_replaced = |parts| stops.lowest_if(parts, Stop::not_replaced);
    let (first, further) = (not_replaced(FIRST), not_replaced(FURTHER));
    let all = stops.lowest(Stop::not_replaced);
    note_all(
        seen,
        &[
            (PartnerFirst, is_any(Part::First)),
            (PartnerMiddle, is_any(Part::Middle)),
            (PartnerLast, is_any(Part::Last)),
            (PartnerFirstLower, first < told),
            (PartnerFirstHigher, first > told),
            (PartnerFurtherLower, further < told),
            (PartnerFurtherHigher, further > told),
            (PartnerForbids, told == NO_CONNECTION && all < told),
            (PartnerNeeded, told < all && all == NO_CONNECTION),
        ],
    );
}

/// URLs are no entries, or are where the rows that were named are.
fn note_entries(stops: &Stops, told: u32, seen: &mut JourneySeen) {
    let is_any = |part| {
        let mut of_part = stops.0.iter().filter(|stop| stop.part == part);
        of_part.any(|stop| stop.url.is_entry)
    };
    let no_entry = |parts| stops.lowest_if(parts, Stop::no_entry);
    let none = no_entry(FURTHER);
    let named = stops.lowest_if(FURTHER, Stop::entry_as_named);
    note_all(
        seen,
        &[
            (EntryFirst, is_any(Part::First)),
            (EntryMiddle, is_any(Part::Middle)),
            (EntryLast, is_any(Part::Last)),
            (EntryMiddleExcused, no_entry(MIDDLE) > told),
            (EntryLastExcused, no_entry(LAST) > told),
            (EntryHigher, told < none && none < NO_CONNECTION),
            (EntryNeeded, told < none && none == NO_CONNECTION),
            (EntryNamed, named < told),
            (EntryPartner, named > told),
        ],
    );
}
