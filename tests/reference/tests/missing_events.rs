//! What is noted of the endpoint that is missing where labels forbid a record. A table lists events, and the cases in which just these are noted. So
//! every event has cases just outside it, which stand with other events or with none; comments say why.

#[path = "common/asked.rs"]
mod asked;
mod common;
#[path = "common/setup.rs"]
mod setup;

use asked::{set_lacking, set_named, Lacking, LOAD, LOAD_NAMED, REDIRECT, REDIRECT_NAMED};
use common::Session;
use reference::layout::ENTRY;
use reference::Event::{self, *};
use setup::seen;

type Table<Case> = &'static [(&'static [Event], &'static [Case])];

/// Every event of a missing endpoint. They stand together, but for the one of an entry.
fn events() -> impl Iterator<Item = Event> {
    let [first, last] = [ReadersLoadOne, WritersRedirectUnlikeRow].map(|event| event as usize);
    let together = Event::ALL[first..=last].iter().copied();
    together.chain([RedirectEntryMessageOutside])
}

/// Of these the record has just the ones that are listed, each once. It comes so far that labels judge it.
fn notes_alone(session: &Session, record: &[u8], listed: &[Event], case: &str) {
    let (number, _, _) = session.clone().feed(record);
    assert!([0, 8, 9].contains(&number), "{case}: {number}");
    let seen = seen(session, record);
    for event in events() {
        let expected = u64::from(listed.contains(&event));
        assert_eq!(seen.count(event), expected, "{case}: {}", event.name());
    }
}

// Without a partner. A case is the address word of the URL, and what is lacking.

type Case = (u32, Lacking<'static>);

fn note_all(record: &[u8], table: Table<Case>) {
    let mut session = Session::new(reference::feed);
    for &(listed, cases) in table {
        for &(word, lacking) in cases {
            set_lacking(&mut session, word, lacking);
            notes_alone(&session, record, listed, &format!("{word} {lacking:?}"));
        }
    }
}

const LOADS: Table<Case> = &[
    (
        &[],
        &[
            (21, [&[], &[], &[], &[]]),
            (21, [&[5], &[], &[], &[9]]), // a load asks neither
            (1, [&[], &[], &[1], &[]]),   // not 0
            (30, [&[], &[], &[30], &[]]), // not 31
            (ENTRY + 21, [&[], &[], &[21], &[9]]),
        ],
    ),
    (
        &[ReadersLoadOne],
        &[
            (21, [&[], &[9], &[], &[]]),
            (21, [&[], &[1], &[], &[]]),
            (21, [&[], &[30], &[], &[]]),
            (21, [&[], &[21], &[21], &[]]), // the message endpoint is the one told
        ],
    ),
    (
        &[ReadersLoadSeveral],
        &[
            (21, [&[], &[8, 9], &[], &[]]),
            (21, [&[], &[30, 31], &[], &[]]), // 31 is not the one told
            (21, [&[], &[21, 25], &[21], &[]]),
        ],
    ),
    (
        &[ReadersLoadOne, ReadersLoadTells0],
        &[(21, [&[], &[0], &[], &[]])],
    ),
    (
        &[ReadersLoadSeveral, ReadersLoadTells0],
        &[(21, [&[], &[0, 31], &[], &[]])],
    ),
    (
        &[ReadersLoadOne, ReadersLoadTells31],
        &[(21, [&[], &[31], &[], &[]])],
    ),
    (
        &[ReadersLoadOne, ReadersLoadThenMessage],
        &[
            (21, [&[], &[9], &[21], &[]]),
            (21, [&[], &[25], &[21], &[]]),
        ],
    ),
    (
        &[ReadersLoadSeveral, ReadersLoadThenMessage],
        &[(21, [&[], &[9, 21], &[21], &[]])],
    ),
    (&[WritersLoadTells0], &[(0, [&[], &[], &[0], &[]])]),
    (&[WritersLoadTells31], &[(31, [&[], &[], &[31], &[]])]),
];

#[test]
fn what_is_noted_of_a_load() {
    note_all(&LOAD, LOADS);
}

const REDIRECTS_BY_EVENT: Table<Case> = &[
    (
        &[],
        &[
            (21, [&[], &[], &[], &[]]),
            (17, [&[1], &[], &[], &[]]),          // not 0
            (30, [&[14], &[], &[], &[]]),         // not 15
            (5, [&[5], &[], &[5], &[]]),          // the message endpoint is the one told
            (21, [&[5], &[], &[], &[5]]),         // so is the writer
            (21, [&[5], &[], &[], &[5, 9]]),      // so is the lowest writer
            (ENTRY + 21, [&[5], &[], &[], &[9]]), // an entry's writers are not asked
        ],
    ),
    (
        &[ReadersRedirectEventTells0],
        &[(0, [&[0], &[], &[], &[]]), (16, [&[0], &[], &[], &[]])],
    ),
    (
        &[ReadersRedirectEventTells15],
        &[(15, [&[15], &[], &[], &[]]), (31, [&[15], &[], &[], &[]])],
    ),
    (
        &[ReadersRedirectEventThenReaders],
        &[(21, [&[5], &[1], &[], &[]]), (21, [&[5], &[9], &[], &[]])],
    ),
    (
        &[ReadersRedirectEventThenMessage],
        &[
            (21, [&[5], &[], &[21], &[]]),
            (ENTRY + 21, [&[5], &[], &[21], &[9]]),
        ],
    ),
    (
        &[ReadersRedirectEventThenWriters],
        &[
            (21, [&[5], &[], &[], &[9]]),
            (21, [&[5], &[], &[], &[1, 5]]),
        ],
    ),
    (
        &[
            ReadersRedirectEventThenReaders,
            ReadersRedirectEventThenMessage,
            ReadersRedirectEventThenWriters,
        ],
        &[(21, [&[5], &[9], &[21], &[8]])],
    ),
];

const REDIRECTS_BY_READERS: Table<Case> = &[
    (
        &[ReadersRedirectOne],
        &[
            (21, [&[], &[9], &[], &[]]),
            (21, [&[], &[1], &[], &[]]),
            (21, [&[], &[30], &[], &[]]),
            (21, [&[], &[21], &[21], &[]]), // the message endpoint is the one told
            (21, [&[], &[9], &[], &[9]]),   // so is the writer
            (21, [&[], &[9], &[], &[9, 10]]), // so is the lowest writer
            (ENTRY + 21, [&[], &[9], &[], &[8]]), // an entry's writers are not asked
        ],
    ),
    (
        &[ReadersRedirectSeveral],
        &[
            (21, [&[], &[8, 9], &[], &[]]),
            (21, [&[], &[30, 31], &[], &[]]), // 31 is not the one told
        ],
    ),
    (
        &[ReadersRedirectOne, ReadersRedirectTells0],
        &[(21, [&[], &[0], &[], &[]])],
    ),
    (
        &[ReadersRedirectSeveral, ReadersRedirectTells0],
        &[(21, [&[], &[0, 31], &[], &[]])],
    ),
    (
        &[ReadersRedirectOne, ReadersRedirectTells31],
        &[(21, [&[], &[31], &[], &[]])],
    ),
    (
        &[ReadersRedirectOne, ReadersRedirectThenMessage],
        &[
            (21, [&[], &[9], &[21], &[]]),
            (21, [&[], &[25], &[21], &[]]),
            (ENTRY + 21, [&[], &[9], &[21], &[8]]),
        ],
    ),
    (
        &[ReadersRedirectOne, ReadersRedirectThenWriters],
        &[
            (21, [&[], &[9], &[], &[8, 9]]),
            (21, [&[], &[9], &[], &[10]]),
        ],
    ),
    (
        &[
            ReadersRedirectOne,
            ReadersRedirectThenMessage,
            ReadersRedirectThenWriters,
        ],
        &[(21, [&[], &[9], &[21], &[8]])],
    ),
];

#[test]
fn what_is_noted_of_a_redirects_readers() {
    note_all(&REDIRECT, REDIRECTS_BY_EVENT);
    note_all(&REDIRECT, REDIRECTS_BY_READERS);
}

const REDIRECTS_BY_MESSAGE: Table<Case> = &[
    (
        &[],
        &[
            (21, [&[], &[], &[21], &[]]),
            (1, [&[], &[], &[1], &[]]),           // not 0
            (30, [&[], &[], &[30], &[]]),         // not 31
            (ENTRY + 21, [&[], &[], &[21], &[]]), // the entry has the writers
        ],
    ),
    (
        &[WritersRedirectMessageTells0],
        &[(0, [&[], &[], &[0], &[]])],
    ),
    (
        &[WritersRedirectMessageTells31],
        &[(31, [&[], &[], &[31], &[]])],
    ),
    (
        &[WritersRedirectMessageThenWriters],
        &[
            (21, [&[], &[], &[21], &[9]]),
            (21, [&[], &[], &[21], &[25]]),
        ],
    ),
    (
        &[RedirectEntryMessageOutside],
        &[(ENTRY + 21, [&[], &[], &[21], &[9]])],
    ),
];

const REDIRECTS_BY_WRITERS: Table<Case> = &[
    (&[], &[(ENTRY + 21, [&[], &[], &[], &[0, 31]])]),
    (
        &[WritersRedirectOne],
        &[
            (21, [&[], &[], &[], &[9]]),
            (21, [&[], &[], &[], &[1]]),
            (21, [&[], &[], &[], &[30]]),
        ],
    ),
    (
        &[WritersRedirectSeveral],
        &[
            (21, [&[], &[], &[], &[8, 9]]),
            (21, [&[], &[], &[], &[30, 31]]), // 31 is not the one told
        ],
    ),
    (
        &[WritersRedirectOne, WritersRedirectTells0],
        &[(21, [&[], &[], &[], &[0]])],
    ),
    (
        &[WritersRedirectSeveral, WritersRedirectTells0],
        &[(21, [&[], &[], &[], &[0, 31]])],
    ),
    (
        &[WritersRedirectOne, WritersRedirectTells31],
        &[(21, [&[], &[], &[], &[31]])],
    ),
];

#[test]
fn what_is_noted_of_a_redirects_writers() {
    note_all(&REDIRECT, REDIRECTS_BY_MESSAGE);
    note_all(&REDIRECT, REDIRECTS_BY_WRITERS);
}

// With a partner. A case is the address word of the URL that is named, and the readers and writers that it lacks; then the same of the partner as
// above. The message endpoint is 5 of the one and 21 of the other.

type NamedCase = (u32, [&'static [u32]; 2], u32, Lacking<'static>);

fn note_all_named(record: &[u8], table: Table<NamedCase>) {
    let mut session = Session::new(reference::feed);
    for &(listed, cases) in table {
        for &(named, lacks, word, lacking) in cases {
            set_named(&mut session, named, lacks);
            set_lacking(&mut session, word, lacking);
            let case = format!("{named} {lacks:?}, {word} {lacking:?}");
            notes_alone(&session, record, listed, &case);
        }
    }
}

const LOADS_NAMED: Table<NamedCase> = &[
    (
        &[],
        &[
            (5, [&[8], &[8]], 21, [&[], &[], &[], &[]]), // labels allow the partner
            (5, [&[], &[]], 21, [&[], &[], &[21], &[]]), // they allow the row itself
            (5, [&[8], &[]], 21, [&[], &[], &[21], &[]]), // 8 forbids that
        ],
    ),
    (
        &[ReadersLoadOne],
        &[
            (5, [&[], &[]], 21, [&[], &[9], &[], &[]]),
            (5, [&[9], &[]], 21, [&[], &[9], &[], &[]]), // the same is told
            (5, [&[], &[]], 21, [&[], &[9], &[5], &[]]), // 9 forbids the row itself
        ],
    ),
    (
        &[ReadersLoadOne, ReadersLoadUnlikeRow],
        &[
            (5, [&[8], &[]], 21, [&[], &[9], &[], &[]]),
            (5, [&[10], &[]], 21, [&[], &[9], &[], &[]]),
        ],
    ),
    (
        &[WritersLoadUnlikeRow],
        &[(5, [&[], &[]], 21, [&[], &[], &[5, 21], &[]])],
    ),
];

const REDIRECTS_NAMED: Table<NamedCase> = &[
    (
        &[],
        &[
            (5, [&[8], &[8]], 21, [&[], &[], &[], &[]]),
            (5, [&[8], &[8]], 21, [&[5], &[], &[], &[]]), // the same event endpoint
            (5, [&[], &[]], 21, [&[], &[], &[21], &[]]),
            (5, [&[8], &[]], 21, [&[], &[], &[21], &[]]),
            (ENTRY + 5, [&[], &[8]], 21, [&[], &[], &[21], &[]]),
        ],
    ),
    (
        &[ReadersRedirectOne],
        &[
            (5, [&[], &[]], 21, [&[], &[9], &[], &[]]),
            (5, [&[9], &[]], 21, [&[], &[9], &[], &[]]),
            (5, [&[], &[8]], 21, [&[], &[9], &[], &[]]),
        ],
    ),
    (
        &[ReadersRedirectOne, ReadersRedirectUnlikeRow],
        &[
            (5, [&[8], &[]], 21, [&[], &[9], &[], &[]]),
            (5, [&[10], &[]], 21, [&[], &[9], &[], &[]]),
        ],
    ),
    (
        &[WritersRedirectMessageUnlikeRow],
        &[
            (5, [&[], &[]], 21, [&[], &[], &[5, 21], &[]]),
            (5, [&[], &[8]], 21, [&[], &[], &[21], &[]]),
        ],
    ),
    (
        &[WritersRedirectMessageThenWriters],
        &[(ENTRY + 5, [&[], &[9]], 21, [&[], &[], &[21], &[9]])],
    ),
    (
        &[RedirectEntryMessageOutside],
        &[(5, [&[], &[]], ENTRY + 21, [&[], &[], &[21], &[9]])],
    ),
    (
        &[WritersRedirectOne],
        &[
            (5, [&[], &[]], 21, [&[], &[], &[], &[9]]),
            (5, [&[], &[9]], 21, [&[], &[], &[], &[9]]),
            (5, [&[8], &[]], 21, [&[], &[], &[], &[9]]),
            (ENTRY + 5, [&[], &[8]], 21, [&[], &[], &[], &[9]]),
        ],
    ),
    (
        &[WritersRedirectOne, WritersRedirectUnlikeRow],
        &[
            (5, [&[], &[8]], 21, [&[], &[], &[], &[9]]),
            (5, [&[], &[]], 21, [&[], &[], &[5], &[9]]),
        ],
    ),
];

#[test]
fn what_is_noted_of_a_partner() {
    note_all_named(&LOAD_NAMED, LOADS_NAMED);
    note_all_named(&REDIRECT_NAMED, REDIRECTS_NAMED);
}

// No event is left out.

#[test]
fn every_event_stands_in_a_table() {
    let tables = [
        LOADS,
        REDIRECTS_BY_EVENT,
        REDIRECTS_BY_READERS,
        REDIRECTS_BY_MESSAGE,
        REDIRECTS_BY_WRITERS,
    ];
    let named_tables = [LOADS_NAMED, REDIRECTS_NAMED];
    let listed = tables.concat().into_iter().map(|(listed, _)| listed);
    let named = named_tables.concat().into_iter().map(|(listed, _)| listed);
    let listed: Vec<Event> = listed.chain(named).flatten().copied().collect();
    for event in events() {
        assert!(listed.contains(&event), "{}", event.name());
    }
}
