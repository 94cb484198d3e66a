//! The address word of a row: which words there are, and which endpoints and host each of them has.

mod common;
#[path = "common/setup.rs"]
mod setup;

use common::{for_each_feed, Session, FEEDS};
use reference::layout::{ENTRY, POLICY_COOKIES, STATE_PRESENT};
use reference::Event;
use setup::{breaks, is_well_formed, list, open, set_connection, set_row, set_script, word, ALL};

// Which words there are.

/// Every word that one byte holds and more, and such as a narrower type would turn into an address or into an entry's.
fn candidates() -> impl Iterator<Item = u32> {
    let wide = (6..32).flat_map(|bit| (0..64).map(move |low| 1 << bit | low));
    (0..1100).chain(wide).chain([ALL - 255, ALL - 32, ALL])
}

#[test]
fn a_row_has_an_address_or_an_entrys() {
    for_each_feed(|mut session| {
        for candidate in candidates() {
            for row in [0, 5, 63] {
                let kept = session.clone();
                set_row(&mut session, row, [candidate, ALL, 0]);
                assert_eq!(is_well_formed(&mut session), candidate < 64, "{candidate}");
                set_row(&mut session, row, [candidate, 0, 0]);
                assert_eq!(
                    is_well_formed(&mut session),
                    candidate == 255,
                    "{candidate}"
                );
                session = kept;
            }
        }
    });
}

#[test]
fn the_borders() {
    let mut session = Session::new(reference::feed);
    for (word, clause) in [
        (31, None),
        (32, None),
        (47, None),
        (48, None),
        (63, None),
        (64, Some(Event::PolicyAddress)),
        (254, Some(Event::PolicyAddress)),
        (255, Some(Event::PolicyEmptyRowSets)),
        (256, Some(Event::PolicyAddressAbove)),
        (255 + 32, Some(Event::PolicyAddressAbove)),
        (ALL, Some(Event::PolicyAddressAbove)),
    ] {
        set_row(&mut session, 5, [word, ALL, ALL]);
        match clause {
            None => assert!(is_well_formed(&mut session), "{word}"),
            Some(clause) => breaks(&session, clause),
        }
    }
}

/// An entry without its event endpoint, whatever else reads it.
#[test]
fn an_entry_has_its_event_endpoint_among_its_readers() {
    for_each_feed(|mut session| {
        for host in 0..16 {
            for (word, clause) in [
                (host, Event::PolicyEventEndpoint),
                (16 + host, Event::PolicyEventEndpoint),
                (ENTRY + host, Event::PolicyEventEndpointEntry),
                (ENTRY + 16 + host, Event::PolicyEventEndpointEntry),
            ] {
                set_row(&mut session, 5, [word, ALL ^ 1 << host, ALL]);
                breaks(&session, clause);
            }
        }
    });
}

/// Of URLs at host 3, the https one is the partner of the http one, whichever of the two are entries; no http row is one, and no row of host 2.
#[test]
fn the_partner_of_a_word() {
    for_each_feed(|mut session| {
        for http in [3, 32 + 3] {
            set_row(&mut session, 5, [http, ALL, ALL]);
            for word in 0..64 {
                set_row(&mut session, 6, [word, ALL, ALL]);
                list(&mut session, 1 << 3, &[(5, 6)]);
                let is_partner = [16 + 3, 48 + 3].contains(&word);
                assert_eq!(is_well_formed(&mut session), is_partner, "{http} {word}");
            }
        }
        // An empty row is none, though its word ends with the bits of https at host 15.
        for http in [15, 32 + 15] {
            set_row(&mut session, 5, [http, ALL, ALL]);
            set_row(&mut session, 6, [255, 0, 0]);
            list(&mut session, 1 << 15, &[(5, 6)]);
            assert!(!is_well_formed(&mut session));
        }
    });
}

// What a word stands for. Each question that is about an endpoint is asked of a set that has one.

/// A URL of this word, and what its endpoints and its host should be.
#[derive(Clone, Copy)]
struct Asked {
    word: u32,
    message: u32,
    host: u32,
}

/// The 64 words: http and https at each host, and the entries of both.
fn words() -> impl Iterator<Item = Asked> {
    (0..16).flat_map(|host| {
        let (http, https) = (host, 16 + host);
        let words = [
            (http, http),
            (https, https),
            (32 + http, http),
            (32 + https, https),
        ];
        words.map(|(word, message)| Asked {
            word,
            message,
            host,
        })
    })
}

const PAGE: usize = 10;
const URL: usize = 11;
const OWN: usize = 8;
const OTHER: usize = 9;

/// Everyone reads and writes both URLs; nobody reads the two connections, and everyone writes them. The first awaits the page.
fn start(session: &mut Session, asked: Asked, page_address: u32) {
    session.state.fill(0);
    set_row(session, PAGE, [page_address, ALL, ALL]);
    set_row(session, URL, [asked.word, ALL, ALL]);
    set_connection(session, OWN, 0, ALL);
    set_connection(session, OTHER, 0, ALL);
    open(session, OWN, 0x0100_0000 | PAGE as u32);
}

/// Each word with each endpoint, for both feeding functions.
fn for_each_endpoint(case: fn(&mut Session, Asked, u32)) {
    for (name, feed) in FEEDS {
        let mut session = Session::new(feed);
        for asked in words() {
            for endpoint in 0..32 {
                println!("{name}, word {}, endpoint {endpoint}", asked.word);
                case(&mut session, asked, endpoint);
            }
        }
    }
}

#[test]
fn the_event_endpoint_of_a_row() {
    for_each_endpoint(|session, asked, endpoint| {
        start(session, asked, 0);
        set_row(session, URL, [asked.word, 1 << endpoint, 0]);
        assert_eq!(is_well_formed(session), endpoint == asked.host);
    });
}

#[test]
fn the_message_endpoint_of_a_load() {
    for_each_endpoint(|session, asked, endpoint| {
        start(session, asked, 0);
        set_connection(session, OTHER, 0, 1 << endpoint);
        let number = session.feed(&[0x03, URL as u8, OTHER as u8]).0;
        assert_eq!(number, if endpoint == asked.message { 0 } else { 9 });
    });
}

#[test]
fn the_message_endpoint_of_what_a_connection_holds() {
    for_each_endpoint(|session, asked, endpoint| {
        start(session, asked, 0);
        set_connection(session, OTHER, 0, 1 << endpoint);
        open(session, OTHER, 0x0300_0000 | URL as u32);
        let number = session.refuse(&[]);
        assert_eq!(number, if endpoint == asked.message { 10 } else { 4 });
    });
}

/// The page has just the endpoint for its address, and the connection for its writer, so that only the URL's own could be missing.
#[test]
fn the_endpoints_of_a_redirects_target() {
    for_each_endpoint(|session, asked, endpoint| {
        let redirect = [0x23, PAGE as u8, OWN as u8, URL as u8];
        start(session, asked, 0);
        set_connection(session, OWN, 1 << endpoint, ALL);
        let number = session.feed(&redirect).0;
        assert_eq!(number, if endpoint == asked.host { 0 } else { 8 });
        start(session, asked, endpoint);
        set_connection(session, OWN, 1 << asked.host, 1 << endpoint);
        let number = session.feed(&redirect).0;
        assert_eq!(number, if endpoint == asked.message { 0 } else { 9 });
    });
}

#[test]
fn the_endpoints_of_a_steps_url() {
    for_each_endpoint(|session, asked, endpoint| {
        for (op, request, kind) in [(5, 0x0B, 0x020A_0000), (7, 0x43, 0x0300_0000)] {
            set_script(session, &[[op, URL as u8, OTHER as u8, 0]]);
            let sends = |session: &mut Session| {
                let (output, _) = session.accept(&[0x0B, PAGE as u8, OWN as u8, 0]);
                let left = word(session, OTHER);
                assert_eq!(output.first(), (left != 0).then_some(&request));
                left == kind | URL as u32
            };
            start(session, asked, 0);
            set_connection(session, OWN, 1 << endpoint, ALL);
            assert_eq!(sends(session), endpoint == asked.host);
            start(session, asked, endpoint);
            set_connection(session, OWN, 1 << asked.host, 1 << endpoint);
            set_connection(session, OTHER, 0, 1 << endpoint);
            assert_eq!(sends(session), endpoint == asked.message);
        }
    });
}

/// Cookies are those of the host, and a request carries those whose readers have the message endpoint.
#[test]
fn the_cookies_of_a_url() {
    for_each_endpoint(|session, asked, endpoint| {
        start(session, asked, 0);
        let host = asked.host as usize;
        session.policy[POLICY_COOKIES..][..256].fill(0);
        session.policy[POLICY_COOKIES + 16 * host..][..2].copy_from_slice(&[0, ALL]);
        open(session, OTHER, 0x0300_0000 | URL as u32);
        session.accept(&[0x47, URL as u8, OTHER as u8, 1, 0, 0, 0, 7]);
        assert_eq!(
            (session.state[8 * host], session.state[STATE_PRESENT + host]),
            (7, 1)
        );
        session.policy[POLICY_COOKIES + 16 * host] = 1 << endpoint;
        let (output, _) = session.accept(&[0x03, URL as u8, OTHER as u8]);
        let carries = endpoint == asked.message;
        assert_eq!(output.len(), if carries { 8 } else { 3 });
    });
}
