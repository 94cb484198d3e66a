//! Which endpoint is told where labels forbid a record, beside the others that
//! are missing. For the events alone: nothing is decided here.

use crate::endpoint::EndpointSet;
use crate::labels::{Condition, Forbidden};
use crate::seen::{Event, Seen};

/// The events of the condition that forbids a record.
struct ConditionEvents {
    clause: Event,
    /// One endpoint is missing, or several. Of a condition that asks for one
    /// endpoint alone no more can be missing.
    count: Option<[Event; 2]>,
    /// The lowest and the highest endpoint that it can tell.
    edges: [(u32, Event); 2],
    /// This later condition would tell another endpoint.
    later: &'static [(Event, Event)],
    /// The URL is a partner, and of the row itself the same number would tell
    /// another endpoint. An event endpoint is that of both.
    unlike_row: Option<Event>,
}

/// Notes what is told by these conditions, and what else is missing.
pub fn note(conditions: &[Condition], seen: &mut Seen) {
    let mut failing = conditions.iter().filter_map(|condition| {
        let forbidden = condition.forbids()?;
        Some((forbidden, condition.lacking))
    });
    let Some((first, lacking)) = failing.next() else {
        return;
    };
    let events = ConditionEvents::of(first);
    events.note_count(lacking, seen);
    events.note_edge(first, seen);
    for (later, _) in failing {
        events.note_later(first, later, seen);
    }
}

/// Notes where labels forbid a partner, and would have forbidden the row itself
/// by the same number, but told another endpoint.
pub fn note_row(partner: Result<(), Forbidden>, row: Result<(), Forbidden>, seen: &mut Seen) {
    let (Err(partner), Err(row)) = (partner, row) else {
        return;
    };
    let is_unlike = row.number == partner.number && row.missing != partner.missing;
    match ConditionEvents::of(partner).unlike_row {
        Some(event) if is_unlike => seen.note(event),
        _ => {}
    }
}

impl ConditionEvents {
    fn of(forbidden: Forbidden) -> &'static ConditionEvents {
        let found = EVENTS.iter().find(|of| of.clause == forbidden.clause);
        found.expect("every condition has its events")
    }

    fn note_count(&self, lacking: EndpointSet, seen: &mut Seen) {
        if let Some([one, several]) = self.count {
            seen.note(match lacking.0.count_ones() {
                1 => one,
                _ => several,
            });
        }
    }

    fn note_edge(&self, first: Forbidden, seen: &mut Seen) {
        for (edge, event) in self.edges {
            if first.missing.0 == edge {
                seen.note(event);
            }
        }
    }

    fn note_later(&self, first: Forbidden, later: Forbidden, seen: &mut Seen) {
        if later.missing == first.missing {
            return;
        }
        let found = self.later.iter().find(|(of, _)| *of == later.clause);
        let (_, event) = found.expect("it is asked after the first");
        seen.note(*event);
    }
}

/// In the order in which the conditions are asked, those of a load first.
const EVENTS: [ConditionEvents; 6] = [
    ConditionEvents {
        clause: Event::ReadersLoad,
        count: Some([Event::ReadersLoadOne, Event::ReadersLoadSeveral]),
        edges: [
            (0, Event::ReadersLoadTells0),
            (31, Event::ReadersLoadTells31),
        ],
        later: &[(Event::WritersLoad, Event::ReadersLoadThenMessage)],
        unlike_row: Some(Event::ReadersLoadUnlikeRow),
    },
    ConditionEvents {
        clause: Event::WritersLoad,
        count: None,
        edges: [
            (0, Event::WritersLoadTells0),
            (31, Event::WritersLoadTells31),
        ],
        later: &[],
        unlike_row: Some(Event::WritersLoadUnlikeRow),
    },
    ConditionEvents {
        clause: Event::ReadersRedirectEvent,
        count: None,
        edges: [
            (0, Event::ReadersRedirectEventTells0),
            (15, Event::ReadersRedirectEventTells15),
        ],
        later: &[
            (
                Event::ReadersRedirect,
                Event::ReadersRedirectEventThenReaders,
            ),
            (
                Event::WritersRedirectMessage,
                Event::ReadersRedirectEventThenMessage,
            ),
            (
                Event::WritersRedirect,
                Event::ReadersRedirectEventThenWriters,
            ),
        ],
        unlike_row: None,
    },
    ConditionEvents {
        clause: Event::ReadersRedirect,
        count: Some([Event::ReadersRedirectOne, Event::ReadersRedirectSeveral]),
        edges: [
            (0, Event::ReadersRedirectTells0),
            (31, Event::ReadersRedirectTells31),
        ],
        later: &[
            (
                Event::WritersRedirectMessage,
                Event::ReadersRedirectThenMessage,
            ),
            (Event::WritersRedirect, Event::ReadersRedirectThenWriters),
        ],
        unlike_row: Some(Event::ReadersRedirectUnlikeRow),
    },
    ConditionEvents {
        clause: Event::WritersRedirectMessage,
        count: None,
        edges: [
            (0, Event::WritersRedirectMessageTells0),
            (31, Event::WritersRedirectMessageTells31),
        ],
        later: &[(
            Event::WritersRedirect,
            Event::WritersRedirectMessageThenWriters,
        )],
        unlike_row: Some(Event::WritersRedirectMessageUnlikeRow),
    },
    ConditionEvents {
        clause: Event::WritersRedirect,
        count: Some([Event::WritersRedirectOne, Event::WritersRedirectSeveral]),
        edges: [
            (0, Event::WritersRedirectTells0),
            (31, Event::WritersRedirectTells31),
        ],
        later: &[],
        unlike_row: Some(Event::WritersRedirectUnlikeRow),
    },
];
