//! Script readers apart from readers: which of the two each rule asks. What loads and redirects ask stands in `missing.rs`.
//!
//! Connection 8 awaits the page of URL 10, which is http at host 2. Its readers are 2, 5 and 9, and all but 9 are script readers.

mod common;
#[path = "common/setup.rs"]
mod setup;

use common::{for_each_feed, Session};
use reference::layout::{POLICY_COOKIES, STATE_PRESENT};
use reference::Event;
use setup::{
    breaks, is_well_formed, open, set, set_connection, set_row, set_script, set_script_readers,
    word, ALL,
};

const PAGE: u8 = 10;
const URL: u8 = 11;
const OWN: usize = 8;
const OTHER: usize = 9;

/// Connection 8 holds the page: as a document, as a script's request, as a picture.
const HELD: [u32; 3] = [0x0100_000A, 0x020A_000A, 0x0300_000A];

fn start(session: &mut Session) {
    set_row(session, PAGE.into(), [2, ALL, ALL]);
    set_connection(session, OWN, set(&[2, 5, 9]), ALL);
    set_script_readers(session, OWN, set(&[2, 5]));
    session.state.fill(0);
    open(session, OWN, HELD[0]);
}

/// The readers of cookie (2,0), which everyone writes.
fn set_cookie_readers(session: &mut Session, readers: u32) {
    session.policy[POLICY_COOKIES + 32..][..2].copy_from_slice(&[readers, ALL]);
}

/// The value of cookie (2,0), if it is present.
fn cookie(session: &Session) -> Option<u32> {
    (session.state[STATE_PRESENT + 2] == 1).then_some(session.state[16])
}

#[test]
fn script_readers_are_within_the_readers() {
    for_each_feed(|mut session| {
        start(&mut session);
        for script_readers in [0, set(&[2]), set(&[5, 9]), set(&[2, 5, 9])] {
            set_script_readers(&mut session, OWN, script_readers);
            assert!(is_well_formed(&mut session));
        }
        for endpoint in (0..32).filter(|endpoint| ![2, 5, 9].contains(endpoint)) {
            set_script_readers(&mut session, OWN, set(&[2, endpoint]));
            breaks(&session, Event::PolicyScriptReaders);
        }
    });
}

/// A connection fits a URL by its readers.
#[test]
fn what_a_connection_may_hold() {
    for_each_feed(|mut session| {
        start(&mut session);
        for held in HELD {
            open(&mut session, OWN, held);
            for (readers, number) in [(set(&[2, 5, 9]), 10), (set(&[2, 5]), 4), (set(&[2]), 4)] {
                set_row(&mut session, PAGE.into(), [2, readers, ALL]);
                assert_eq!(session.refuse(&[]), number);
            }
        }
    });
}

/// A delivered cookie's readers are within the readers, by each response and by a redirect.
#[test]
fn a_delivered_cookie() {
    for_each_feed(|mut session| {
        let front = |map| [map, PAGE, OWN as u8, 1, 0, 0, 0, 7];
        let records = [
            (HELD[0], [&front(0x0F)[..], &[0]].concat()),
            (HELD[1], [&front(0x17)[..], &[0; 4]].concat()),
            (HELD[2], front(0x47).to_vec()),
            (HELD[0], [&front(0x27)[..], &[PAGE]].concat()),
        ];
        for (held, record) in records {
            for (readers, stored) in [(9, Some(7)), (10, None)] {
                start(&mut session);
                open(&mut session, OWN, held);
                set_cookie_readers(&mut session, set(&[2, readers]));
                session.accept(&record);
                assert_eq!(cookie(&session), stored, "{record:02x?}");
            }
        }
    });
}

const RESPONSE: [u8; 4] = [0x0B, PAGE, OWN as u8, 0];

/// A script reads where the script readers are within the cookie's readers.
#[test]
fn a_cookie_that_a_script_reads() {
    for_each_feed(|mut session| {
        set_script(&mut session, &[[3, 1, 0, 0]]);
        for (readers, steps) in [(set(&[2, 5]), 2), (set(&[2, 9]), 1), (ALL, 2)] {
            start(&mut session);
            set_cookie_readers(&mut session, readers);
            session.state[STATE_PRESENT + 2] = 1;
            assert_eq!(session.accept(&RESPONSE), (vec![], steps));
        }
    });
}

/// It writes where the cookie's readers are within the script readers.
#[test]
fn a_cookie_that_a_script_writes() {
    for_each_feed(|mut session| {
        set_script(&mut session, &[[1, 1, 0, 7], [4, 0, 1, 0]]);
        for (readers, stored) in [(set(&[2, 5]), Some(7)), (set(&[9]), None), (0, Some(7))] {
            start(&mut session);
            set_cookie_readers(&mut session, readers);
            assert_eq!(session.accept(&RESPONSE), (vec![], 3));
            assert_eq!(cookie(&session), stored);
        }
    });
}

/// The event endpoint of a step's URL, and the readers of the connection that it asks for it on, are among the script readers; these readers, and not
/// the script readers beside them, are within the URL's.
#[test]
fn a_step_that_sends_a_request() {
    for_each_feed(|mut session| {
        for (address, url_readers, readers, script_readers, sends) in [
            (5, ALL, set(&[2, 5]), set(&[2]), true),
            (5, ALL, 0, 0, true),
            (9, ALL, set(&[2]), set(&[2]), false),
            (5, ALL, set(&[2, 9]), set(&[2]), false),
            (5, ALL, set(&[2, 10]), 0, false),
            (5, set(&[5]), set(&[2, 5]), set(&[5]), false),
        ] {
            for (op, kind) in [(5, 0x020A_0000), (7, 0x0300_0000)] {
                start(&mut session);
                set_row(&mut session, URL.into(), [address, url_readers, ALL]);
                set_connection(&mut session, OTHER, readers, ALL);
                set_script_readers(&mut session, OTHER, script_readers);
                set_script(&mut session, &[[op, URL, OTHER as u8, 0]]);
                let (_, steps) = session.accept(&RESPONSE);
                let (expected, held) = if sends { (2, kind | 11) } else { (1, 0) };
                assert_eq!((steps, word(&session, OTHER)), (expected, held));
            }
        }
    });
}
