//! Front pages anyone may link to: cases worked out by hand under document 01's small policy P, with entries.
//!
//! In P, URL 1 is http at host 1, and everyone reads and writes it and connection 1. URL 0 is https at host 0. Cookie (0,0) has 16, which is that
//! endpoint, alone as reader and writer, and connection 0 has it as its writer.

mod common;
#[path = "common/setup.rs"]
mod setup;

use common::{for_each_feed, walk_input, Session, FEEDS};
use reference::layout::{ENTRY, POLICY_COOKIES, STATE_PRESENT};
use reference::Event;
use setup::{notes, open, set, set_connection, set_entry, set_row, set_script, word, ALL};

// The search page: URL 1 on connection 1. At host 0, by https, URL 4 is the canteen's front page and URL 5 the page behind it: everyone may learn of
// both, and only the canteen writes them.

const FRONT: u8 = 4;
const BEHIND: u8 = 5;

fn canteen(session: &mut Session) {
    set_row(session, FRONT.into(), [ENTRY + 16, ALL, 0x0001_0000]);
    set_row(session, BEHIND.into(), [16, ALL, 0x0001_0000]);
}

#[test]
fn a_search_page_reaches_the_front_page_and_not_the_page_behind_it() {
    for_each_feed(|mut session| {
        canteen(&mut session);
        session.accept(&[0x03, 1, 1]);
        notes(&session, &[0x23, 1, 1, FRONT], Event::RedirectEntryExcused);
        notes(&session, &[0x23, 1, 1, BEHIND], Event::WritersRedirect);
        assert_eq!(session.refuse(&[0x23, 1, 1, BEHIND]), 9);
        let sent = session.accept(&[0x23, 1, 1, FRONT]);
        assert_eq!(sent, (vec![0x03, FRONT, 1], 0));
        assert_eq!(word(&session, 1), 0x0100_0000 | u32::from(FRONT));
    });
}

/// What the search page has shaped does not get further from the front page.
#[test]
fn the_front_page_leads_nobody_to_the_page_behind_it() {
    for_each_feed(|mut session| {
        canteen(&mut session);
        session.accept(&[0x03, 1, 1]);
        session.accept(&[0x23, 1, 1, FRONT]);
        let redirect = [0x23, FRONT, 1, BEHIND];
        notes(&session, &redirect, Event::RedirectFromEntry);
        assert_eq!(session.refuse(&redirect), 9);
        for (step, event) in [
            ([5, BEHIND, 1, 0], Event::SendFromEntry),
            ([7, BEHIND, 1, 0], Event::PictureFromEntry),
        ] {
            set_script(&mut session, &[step]);
            open(&mut session, 1, 0x0100_0000 | u32::from(FRONT));
            notes(&session, &[0x0B, FRONT, 1, 0], event);
            assert_eq!(session.accept(&[0x0B, FRONT, 1, 0]), (vec![], 1));
        }
    });
}

/// From a connection that the canteen alone writes, both are reached.
#[test]
fn the_canteen_leads_to_the_page_behind_it() {
    for_each_feed(|mut session| {
        canteen(&mut session);
        session.accept(&[0x03, FRONT, 0]);
        let sent = session.accept(&[0x23, FRONT, 0, BEHIND]);
        assert_eq!(sent, (vec![0x03, BEHIND, 0], 0));
        notes(&session, &[0x23, BEHIND, 0, FRONT], Event::RedirectEntry);
        let sent = session.accept(&[0x23, BEHIND, 0, FRONT]);
        assert_eq!(sent, (vec![0x03, FRONT, 0], 0));
    });
}

#[test]
fn a_redirect_to_an_entry_keeps_the_kind() {
    let kinds = [
        (0x0100_0001, 0x03, None, Event::RedirectExcusedDocument),
        (0x0203_0501, 0x0B, Some(5), Event::RedirectExcusedScript),
        (0x0300_0001, 0x43, None, Event::RedirectExcusedPicture),
    ];
    for (held, map, handler, event) in kinds {
        for (_, feed) in FEEDS {
            let mut session = Session::new(feed);
            canteen(&mut session);
            open(&mut session, 1, held);
            notes(&session, &[0x23, 1, 1, FRONT], event);
            assert_eq!(session.refuse(&[0x23, 1, 1, BEHIND]), 9);
            let request = [&[map, FRONT, 1][..], handler.as_slice()].concat();
            assert_eq!(session.accept(&[0x23, 1, 1, FRONT]), (request, 0));
            assert_eq!(word(&session, 1), held - 1 + u32::from(FRONT));
        }
    }
}

/// The cookie that the redirect brings is for host 1; the one that it carries is host 0's.
#[test]
fn cookies_of_a_redirect_to_an_entry() {
    for_each_feed(|mut session| {
        canteen(&mut session);
        session.policy[POLICY_COOKIES + 16..][..2].fill(ALL);
        session.state[0] = 7;
        session.state[STATE_PRESENT] = 1;
        open(&mut session, 1, 0x0100_0001);
        let redirect = [0x27, 1, 1, 1, 0, 0, 0, 9, FRONT];
        notes(&session, &redirect, Event::RequestCookiesEntry);
        let request = vec![0x07, FRONT, 1, 1, 0, 0, 0, 7];
        assert_eq!(session.accept(&redirect), (request, 0));
        assert_eq!(session.state[8], 9);
        assert_eq!(session.state[STATE_PRESENT..][..2], [1, 1]);
    });
}

/// The cookies of an entry are those of its host, also for its own script.
#[test]
fn cookies_that_come_for_an_entry() {
    for_each_feed(|mut session| {
        set_entry(&mut session, 0, true);
        set_script(&mut session, &[[3, 1, 0, 0], [4, 0, 1, 0]]);
        open(&mut session, 2, 0x0100_0000);
        let response = [0x0F, 0, 2, 1, 0, 0, 0, 7, 0];
        for event in [
            Event::CookieStoredEntry,
            Event::StepReadEntry,
            Event::StepWriteEntry,
        ] {
            notes(&session, &response, event);
        }
        assert_eq!(session.accept(&response), (vec![], 3));
        assert_eq!((session.state[0], session.state[STATE_PRESENT]), (7, 1));
    });
}

// Each condition alone, and every few of them together. The page is URL 10, http at host 2, which everyone reads and writes; what is asked for is
// URL 11, https at host 5, whose message endpoint is 21 and whose event endpoint is 5.

const PAGE: u8 = 10;
const URL: u8 = 11;
const OWN: usize = 8;
const OTHER: usize = 9;

/// The set without the last endpoint where the condition of this number is to fail.
fn unless(fails: u32, condition: u32, endpoints: &[u32]) -> u32 {
    let dropped = (fails >> condition & 1) as usize;
    set(&endpoints[..endpoints.len() - dropped])
}

fn set_urls(session: &mut Session, is_entry: bool, readers: u32, writers: u32) {
    set_row(session, PAGE.into(), [2, ALL, ALL]);
    set_row(session, URL.into(), [21, readers, writers]);
    set_entry(session, URL.into(), is_entry);
    open(session, OWN, 0x0100_0000 | u32::from(PAGE));
}

/// The conditions of a redirect: the event endpoint, the readers, the message endpoint, the writers.
const REDIRECT_CONDITIONS: u32 = 4;
const WRITERS_OF_REDIRECT: u32 = 3;

fn set_redirect(session: &mut Session, is_entry: bool, fails: u32) {
    let readers = unless(fails, 0, &[2, 5]);
    let url_readers = unless(fails, 1, &[5, 21, 2]);
    let writers = unless(fails, 2, &[2, 21]);
    let url_writers = unless(fails, WRITERS_OF_REDIRECT, &[21, 2]);
    set_urls(session, is_entry, url_readers, url_writers);
    set_connection(session, OWN, readers, writers);
}

fn redirect_number(is_entry: bool, fails: u32) -> u32 {
    match fails {
        0b0000 => 0,
        0b1000 if is_entry => 0,
        0b0100 | 0b1000 | 0b1100 => 9,
        _ => 8,
    }
}

#[test]
fn every_condition_of_a_redirect() {
    for_each_feed(|mut session| {
        for (is_entry, fails) in both_of(REDIRECT_CONDITIONS) {
            set_redirect(&mut session, is_entry, fails);
            let redirect = [0x23, PAGE, OWN as u8, URL];
            let (number, output, _) = session.feed(&redirect);
            let expected = redirect_number(is_entry, fails);
            assert_eq!(number, expected, "{is_entry} {fails:04b}");
            let request = [0x03, URL, OWN as u8];
            let sent = if number == 0 { &request[..] } else { &[] };
            assert_eq!(output, sent);
        }
    });
}

/// What fails, by a mask of so many conditions, where the URL is an entry and where it is none.
fn both_of(conditions: u32) -> impl Iterator<Item = (bool, u32)> {
    (0..1 << conditions).flat_map(|fails| [(false, fails), (true, fails)])
}

#[test]
fn what_is_noted_of_a_redirect_to_an_entry() {
    let mut session = Session::new(reference::feed);
    for (fails, event) in [
        (0b0000, Event::RedirectEntry),
        (0b0001, Event::RedirectEntryEvent),
        (0b0010, Event::RedirectEntryReaders),
        (0b0100, Event::RedirectEntryMessage),
        (0b1000, Event::RedirectEntryExcused),
        (0b1001, Event::RedirectEntryEvent),
        (0b1010, Event::RedirectEntryReaders),
        (0b1100, Event::RedirectEntryMessage),
    ] {
        set_redirect(&mut session, true, fails);
        notes(&session, &[0x23, PAGE, OWN as u8, URL], event);
    }
}

/// One of the two steps that send a request.
struct Step {
    op: u8,
    /// Its request, and the word that it leaves.
    request: &'static [u8],
    word: u32,
    /// What is noted where the URL is an entry: nothing fails, each condition in turn, the last one excused.
    events: [Event; 7],
}

const STEPS: [Step; 2] = [
    Step {
        op: 5,
        request: &[0x0B, URL, OTHER as u8, 6],
        word: 0x020A_060B,
        events: [
            Event::SendEntry,
            Event::SendEntryEvent,
            Event::SendEntryReaders,
            Event::SendEntryFitReaders,
            Event::SendEntryFitWriters,
            Event::SendEntryWriters,
            Event::SendEntryExcused,
        ],
    },
    Step {
        op: 7,
        request: &[0x43, URL, OTHER as u8],
        word: 0x0300_000B,
        events: [
            Event::PictureEntry,
            Event::PictureEntryEvent,
            Event::PictureEntryReaders,
            Event::PictureEntryFitReaders,
            Event::PictureEntryFitWriters,
            Event::PictureEntryWriters,
            Event::PictureEntryExcused,
        ],
    },
];

fn for_each_step(case: fn(Session, &Step)) {
    for (name, feed) in FEEDS {
        for step in &STEPS {
            println!("{name}, step {}", step.op);
            case(Session::new(feed), step);
        }
    }
}

/// The conditions of a step: the event endpoint in S, the other connection's readers within S and within the URL's, the message endpoint in the
/// other connection's writers, J within these and within the URL's writers.
const STEP_CONDITIONS: u32 = 6;
const WRITERS_OF_STEP: u32 = 5;

fn set_step(session: &mut Session, step: &Step, is_entry: bool, fails: u32) {
    let readers = set(&[2]) | unless(fails, 0, &[2, 5]) | unless(fails, 1, &[2, 7]);
    let url_readers = unless(fails, 2, &[2, 5, 7]);
    let other_writers = unless(fails, 3, &[2, 21]) | unless(fails, 4, &[2, 3]);
    let url_writers = unless(fails, WRITERS_OF_STEP, &[2, 3]);
    set_urls(session, is_entry, url_readers, url_writers);
    set_connection(session, OWN, readers, set(&[2, 3]));
    set_connection(session, OTHER, set(&[2, 7]), other_writers);
    set_script(session, &[[step.op, URL, OTHER as u8, 6]]);
}

const STEP_RESPONSE: [u8; 4] = [0x0B, PAGE, OWN as u8, 0];

#[test]
fn every_condition_of_a_step() {
    for_each_step(|mut session, step| {
        for (is_entry, fails) in both_of(STEP_CONDITIONS) {
            session.state.fill(0);
            set_step(&mut session, step, is_entry, fails);
            let asked = if is_entry {
                fails & !(1 << WRITERS_OF_STEP)
            } else {
                fails
            };
            let (request, steps, left) = match asked {
                0 => (step.request, 2, step.word),
                _ => (&[][..], 1, 0),
            };
            let sent = session.accept(&STEP_RESPONSE);
            assert_eq!(sent, (request.to_vec(), steps), "{is_entry} {fails:06b}");
            assert_eq!(word(&session, OTHER), left);
        }
    });
}

#[test]
fn what_is_noted_of_a_step_at_an_entry() {
    let mut session = Session::new(reference::feed);
    for step in &STEPS {
        for (place, &event) in step.events.iter().enumerate() {
            let fails = 1 << place >> 1;
            set_step(&mut session, step, true, fails);
            notes(&session, &STEP_RESPONSE, event);
            if place < step.events.len() - 1 && place > 0 {
                set_step(&mut session, step, true, fails | 1 << WRITERS_OF_STEP);
                notes(&session, &STEP_RESPONSE, event);
            }
        }
    }
}

/// The other connection has J as its writers: nothing but the URL's writers could keep it back, and these are none.
#[test]
fn an_entry_without_writers() {
    for_each_step(|mut session, step| {
        set_step(&mut session, step, true, 0);
        set_row(&mut session, URL.into(), [ENTRY + 21, ALL, 0]);
        let sent = session.accept(&STEP_RESPONSE);
        assert_eq!(sent, (step.request.to_vec(), 2));
    });
}

// Loads.

/// A load asks for no writers of the URL, whether it is an entry or not; readers and message endpoint are asked of both.
#[test]
fn a_load_is_the_same_of_an_entry() {
    for_each_feed(|mut session| {
        let loads = [
            (set(&[2, 5]), set(&[2, 21]), 0),
            (set(&[2, 5, 7]), set(&[2, 21]), 8),
            (set(&[2, 5]), set(&[2]), 9),
            (set(&[2, 5, 7]), set(&[2]), 8),
            (0, ALL, 0),
        ];
        for (readers, writers, number) in loads {
            for is_entry in [false, true] {
                for url_writers in [0, set(&[21]), ALL] {
                    set_row(&mut session, URL.into(), [21, set(&[2, 5]), url_writers]);
                    set_entry(&mut session, URL.into(), is_entry);
                    set_connection(&mut session, OTHER, readers, writers);
                    let load = [0x03, URL, OTHER as u8];
                    assert_eq!(session.feed(&load).0, number);
                    session.state.fill(0);
                }
            }
        }
    });
}

#[test]
fn what_is_noted_of_a_load_of_an_entry() {
    let mut session = Session::new(reference::feed);
    set_row(&mut session, URL.into(), [ENTRY + 21, set(&[2, 5]), 0]);
    let load = [0x03, URL, OTHER as u8];
    for (readers, writers, event) in [
        (set(&[2, 5]), set(&[21]), Event::LoadEntry),
        (set(&[2, 5]), set(&[2, 21]), Event::LoadOutsideEntry),
        (set(&[2, 5, 7]), set(&[21]), Event::LoadEntryReaders),
        (set(&[2, 5]), set(&[2]), Event::LoadEntryMessage),
    ] {
        set_connection(&mut session, OTHER, readers, writers);
        notes(&session, &load, event);
    }
    set_entry(&mut session, URL.into(), false);
    set_connection(&mut session, OTHER, set(&[2, 5]), set(&[2, 21]));
    notes(&session, &load, Event::LoadOutside);
}

/// A connection may hold an entry only where it fits it.
#[test]
fn a_state_is_the_same_with_an_entry() {
    for_each_feed(|mut session| {
        set_row(&mut session, URL.into(), [ENTRY + 21, set(&[2, 5]), 0]);
        for (readers, writers, event) in [
            (set(&[2]), set(&[2, 21]), None),
            (set(&[2, 7]), set(&[21]), Some(Event::StateUrlReadersEntry)),
            (set(&[2]), set(&[2, 20]), Some(Event::StateUrlWritersEntry)),
        ] {
            set_connection(&mut session, OTHER, readers, writers);
            for kind in [0x0100_0000, 0x020B_0000, 0x0300_0000] {
                open(&mut session, OTHER, kind | u32::from(URL));
                let number = if event.is_some() { 4 } else { 10 };
                assert_eq!(session.refuse(&[]), number);
                event
                    .into_iter()
                    .for_each(|event| notes(&session, &[], event));
            }
        }
    });
}

// The program walk.

/// From the search page to the page behind the front page, to the front page, and from there on.
#[test]
fn walk_goes_to_the_front_page() {
    let records = [
        &[3, 0x03, 1, 1][..],
        &[4, 0x23, 1, 1, BEHIND],
        &[4, 0x23, 1, 1, FRONT],
        &[4, 0x23, FRONT, 1, BEHIND],
        &[3, 0x03, BEHIND, 0],
    ];
    let mut session = Session::new(reference::feed);
    canteen(&mut session);
    let mut input = walk_input(&records.concat());
    let policy = session.policy.iter().flat_map(|word| word.to_be_bytes());
    input.splice(..4 * session.policy.len(), policy);
    let lines = "\
1 0 3 0 32
> 1 1 00
2 9 0 0 0
3 0 3 0 32
> 4 1 00
4 9 0 0 0
5 0 3 0 32
> 5 0 00
end 3 2
";
    assert_eq!(reference::walk(&input), lines);
}
