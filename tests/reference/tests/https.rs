//! Hosts that are always https: cases worked out by hand under document 01's small policy P, with hosts listed.
//!
//! In P, URLs 0 and 3 are https and http at host 0, URLs 2 and 1 https and http at host 1. Where host 0 is listed, URL 0 is the partner of URL 3.
//! URL 0 has readers {0, 16} and writer 16, URL 3 has readers and writers {0, 16}. Connections 0 and 3 have readers {0, 16}, and as writers 16
//! and {0, 16}; connection 1 has every endpoint. Cookie (0,0) has 16 alone as reader and writer. What P leaves empty, a case may fill.

mod common;
#[path = "common/setup.rs"]
mod setup;

use common::{for_each_feed, walk_input, Session, FEEDS};
use reference::layout::{
    NO_PARTNER, POLICY_COOKIES, POLICY_HTTPS_HOSTS, POLICY_PARTNERS, POLICY_WORDS,
    STATE_CONNECTIONS, STATE_PRESENT, STATE_WORDS, URLS,
};
use reference::Event;
use setup::{breaks, is_well_formed, list, open, set_connection, set_row, set_script, word, ALL};

/// http and https at host 0, and http there alone.
const HOST_0: u32 = 0x0001_0001;
const HTTP_0: u32 = 0x0000_0001;

fn list_host_0(session: &mut Session) {
    list(session, 1, &[(3, 0)]);
}

fn unlist(session: &mut Session) {
    list(session, 0, &[]);
}

/// Number and output of a record, once with no host listed and once with host 0, each from the same state. The state after is the second one's.
fn not_listed_and_listed(session: &mut Session, record: &[u8]) -> [(u32, Vec<u8>); 2] {
    let before = session.state.clone();
    unlist(session);
    let (own_number, own_output, _) = session.feed(record);
    session.state = before;
    list_host_0(session);
    let (number, output, _) = session.feed(record);
    [(own_number, own_output), (number, output)]
}

fn refused(number: u32) -> (u32, Vec<u8>) {
    (number, vec![])
}

fn sent(output: &[u8]) -> (u32, Vec<u8>) {
    (0, output.to_vec())
}

/// Gives cookie (0,0) the value 7.
fn store_7(session: &mut Session) {
    session.state[0] = 7;
    session.state[STATE_PRESENT] |= 1;
}

/// With host 0 listed, the record has this event.
fn notes(session: &Session, record: &[u8], event: Event) {
    let mut listing = session.clone();
    listing.policy[POLICY_HTTPS_HOSTS] = 1;
    listing.policy[POLICY_PARTNERS + 3] = 0;
    setup::notes(&listing, record, event);
}

// Loads.

const LOAD_3_ON_0: [u8; 3] = [0x03, 3, 0];
const LOAD_3_ON_1: [u8; 3] = [0x03, 3, 1];
const LOAD_3_ON_3: [u8; 3] = [0x03, 3, 3];

#[test]
fn a_load_goes_to_the_partner() {
    for_each_feed(|mut session| {
        notes(&session, &LOAD_3_ON_3, Event::LoadUpgraded);
        let both = not_listed_and_listed(&mut session, &LOAD_3_ON_3);
        assert_eq!(both, [sent(&[0x03, 3, 3]), sent(&[0x03, 0, 3])]);
        assert_eq!(word(&session, 3), 0x0100_0000);
    });
}

/// Cookie (0,0) is for https alone, and (0,1) for http alone.
#[test]
fn a_load_carries_the_partners_cookies() {
    for_each_feed(|mut session| {
        store_7(&mut session);
        session.policy[POLICY_COOKIES + 2] = HTTP_0;
        session.state[1] = 9;
        session.state[STATE_PRESENT] |= 2;
        notes(&session, &LOAD_3_ON_3, Event::LoadUpgradedCarries);
        notes(&session, &LOAD_3_ON_3, Event::LoadUpgradedKeepsBack);
        let both = not_listed_and_listed(&mut session, &LOAD_3_ON_3);
        let own = sent(&[0x07, 3, 3, 2, 0, 0, 0, 9]);
        assert_eq!(both, [own, sent(&[0x07, 0, 3, 1, 0, 0, 0, 7])]);
    });
}

/// Without the list this is document 01's case c.
#[test]
fn a_load_that_only_the_partners_endpoint_allows() {
    for_each_feed(|mut session| {
        notes(&session, &LOAD_3_ON_0, Event::LoadUpgradedAgainstRow);
        let both = not_listed_and_listed(&mut session, &LOAD_3_ON_0);
        assert_eq!(both, [refused(9), sent(&[0x03, 0, 0])]);
        assert_eq!(word(&session, 0), 0x0100_0000);
    });
}

#[test]
fn a_load_that_only_the_partners_readers_allow() {
    for_each_feed(|mut session| {
        session.policy[1] = ALL;
        let both = not_listed_and_listed(&mut session, &LOAD_3_ON_1);
        assert_eq!(both, [refused(8), sent(&[0x03, 0, 1])]);
    });
}

/// Endpoint 16 is not among the writers of connection 4.
#[test]
fn a_load_that_the_partners_endpoint_forbids() {
    for_each_feed(|mut session| {
        set_connection(&mut session, 4, HOST_0, HTTP_0);
        notes(&session, &[0x03, 3, 4], Event::LoadUpgradedMessage);
        let both = not_listed_and_listed(&mut session, &[0x03, 3, 4]);
        assert_eq!(both, [sent(&[0x03, 3, 4]), refused(9)]);
    });
}

#[test]
fn a_load_that_the_partners_readers_forbid() {
    for_each_feed(|mut session| {
        set_row(&mut session, 3, [0, ALL, HOST_0]);
        notes(&session, &LOAD_3_ON_1, Event::LoadUpgradedReaders);
        let both = not_listed_and_listed(&mut session, &LOAD_3_ON_1);
        assert_eq!(both, [sent(&[0x03, 3, 1]), refused(8)]);
    });
}

/// 8 goes before 9, of the partner too; of the row itself it would be 9.
#[test]
fn the_first_number_is_the_partners() {
    for_each_feed(|mut session| {
        set_row(&mut session, 3, [0, ALL, ALL]);
        set_connection(&mut session, 4, ALL, 0x0000_0002);
        let both = not_listed_and_listed(&mut session, &[0x03, 3, 4]);
        assert_eq!(both, [refused(9), refused(8)]);
    });
}

#[test]
fn a_load_replaces_what_is_pending_by_the_partner() {
    for_each_feed(|mut session| {
        open(&mut session, 3, 0x0203_0503);
        let both = not_listed_and_listed(&mut session, &LOAD_3_ON_3);
        assert_eq!(both, [sent(&[0x03, 3, 3]), sent(&[0x03, 0, 3])]);
        assert_eq!(word(&session, 3), 0x0100_0000);
    });
}

// Redirects.

#[test]
fn a_redirect_goes_to_the_targets_partner() {
    for_each_feed(|mut session| {
        set_row(&mut session, 0, [16, HOST_0, HOST_0]);
        let redirect = [0x23, 0, 3, 3];
        let kinds = [
            (0x0100_0000, 0x03, None),
            (0x0203_0500, 0x0B, Some(5)),
            (0x0300_0000, 0x43, None),
        ];
        for (kind, map, handler) in kinds {
            open(&mut session, 3, kind);
            notes(&session, &redirect, Event::RedirectUpgraded);
            let request = |url| sent(&[&[map, url, 3][..], handler.as_slice()].concat());
            let both = not_listed_and_listed(&mut session, &redirect);
            assert_eq!(both, [request(3), request(0)]);
            assert_eq!(word(&session, 3), kind);
        }
    });
}

/// The cookie that it brings is stored for the URL that it leaves, and goes to the partner, which is at the same host.
#[test]
fn a_redirect_carries_the_partners_cookies() {
    for_each_feed(|mut session| {
        open(&mut session, 0, 0x0100_0000);
        let redirect = [0x27, 0, 0, 1, 0, 0, 0, 9, 3];
        notes(&session, &redirect, Event::RedirectUpgradedCarries);
        let both = not_listed_and_listed(&mut session, &redirect);
        assert_eq!(both, [refused(9), sent(&[0x07, 0, 0, 1, 0, 0, 0, 9])]);
        assert_eq!((session.state[0], session.state[STATE_PRESENT]), (9, 1));
    });
}

#[test]
fn a_redirect_keeps_back_what_only_http_reads() {
    for_each_feed(|mut session| {
        set_row(&mut session, 0, [16, HOST_0, HOST_0]);
        store_7(&mut session);
        session.policy[POLICY_COOKIES] = HTTP_0;
        open(&mut session, 3, 0x0100_0000);
        notes(&session, &[0x23, 0, 3, 3], Event::RedirectUpgradedKeepsBack);
        let both = not_listed_and_listed(&mut session, &[0x23, 0, 3, 3]);
        let own = sent(&[0x07, 3, 3, 1, 0, 0, 0, 7]);
        assert_eq!(both, [own, sent(&[0x03, 0, 3])]);
    });
}

/// Endpoint 0 is not among the writers of connection 0, and 16 is.
#[test]
fn a_redirect_that_only_the_partners_endpoint_allows() {
    for_each_feed(|mut session| {
        open(&mut session, 0, 0x0100_0000);
        notes(
            &session,
            &[0x23, 0, 0, 3],
            Event::RedirectUpgradedAgainstRow,
        );
        let both = not_listed_and_listed(&mut session, &[0x23, 0, 0, 3]);
        assert_eq!(both, [refused(9), sent(&[0x03, 0, 0])]);
        assert_eq!(word(&session, 0), 0x0100_0000);
    });
}

#[test]
fn a_redirect_that_only_the_partners_readers_allow() {
    for_each_feed(|mut session| {
        set_row(&mut session, 0, [16, ALL, ALL]);
        open(&mut session, 1, 0x0100_0001);
        let both = not_listed_and_listed(&mut session, &[0x23, 1, 1, 3]);
        assert_eq!(both, [refused(8), sent(&[0x03, 0, 1])]);
        assert_eq!(word(&session, 1), 0x0100_0000);
    });
}

#[test]
fn a_redirect_that_only_the_partners_writers_allow() {
    for_each_feed(|mut session| {
        set_row(&mut session, 0, [16, HOST_0, HOST_0]);
        set_row(&mut session, 3, [0, HOST_0, HTTP_0]);
        open(&mut session, 3, 0x0100_0000);
        let both = not_listed_and_listed(&mut session, &[0x23, 0, 3, 3]);
        assert_eq!(both, [refused(9), sent(&[0x03, 0, 3])]);
    });
}

/// A cookie that such a redirect brings is not stored.
#[test]
fn a_redirect_that_the_partners_readers_forbid() {
    for_each_feed(|mut session| {
        set_row(&mut session, 3, [0, ALL, ALL]);
        open(&mut session, 1, 0x0100_0001);
        let redirect = [0x27, 1, 1, 1, 0, 0, 0, 9, 3];
        notes(&session, &redirect, Event::RedirectUpgradedReaders);
        let both = not_listed_and_listed(&mut session, &redirect);
        assert_eq!(both, [sent(&[0x03, 3, 1]), refused(8)]);
        assert_eq!(session.state[STATE_PRESENT..STATE_CONNECTIONS], [0; 16]);
    });
}

/// Connection 4 does not fit URL 0; it holds URL 3 itself, as only a state that is lent can have it.
#[test]
fn a_redirect_that_the_partners_endpoint_forbids() {
    for_each_feed(|mut session| {
        set_connection(&mut session, 4, HOST_0, HTTP_0);
        open(&mut session, 4, 0x0100_0003);
        notes(&session, &[0x23, 3, 4, 3], Event::RedirectUpgradedMessage);
        let both = not_listed_and_listed(&mut session, &[0x23, 3, 4, 3]);
        assert_eq!(both, [sent(&[0x03, 3, 4]), refused(9)]);
    });
}

/// Both writers of connection 3 are writers of URL 3, and not both of URL 0.
#[test]
fn a_redirect_that_the_partners_writers_forbid() {
    for_each_feed(|mut session| {
        open(&mut session, 3, 0x0100_0000);
        notes(&session, &[0x23, 0, 3, 3], Event::RedirectUpgradedWriters);
        let both = not_listed_and_listed(&mut session, &[0x23, 0, 3, 3]);
        assert_eq!(both, [sent(&[0x03, 3, 3]), refused(9)]);
    });
}

// Steps 5 and 7.

/// One of the two steps that send a request.
struct Sends {
    op: u8,
    map: u8,
    /// The word that it leaves, without origin and URL.
    kind: u32,
    /// What may come of the replacement, in the order of the constants below.
    events: [Event; 7],
}

const SENT: usize = 0;
const SENT_AGAINST_ROW: usize = 1;
const READERS: usize = 2;
const MESSAGE: usize = 3;
const WRITERS: usize = 4;
const CARRIES: usize = 5;
const KEEPS_BACK: usize = 6;

const SENDS: [Sends; 2] = [
    Sends {
        op: 5,
        map: 0x0B,
        kind: 0x0200_0900,
        events: [
            Event::SendUpgraded,
            Event::SendUpgradedAgainstRow,
            Event::SendUpgradedReaders,
            Event::SendUpgradedMessage,
            Event::SendUpgradedWriters,
            Event::SendUpgradedCarries,
            Event::SendUpgradedKeepsBack,
        ],
    },
    Sends {
        op: 7,
        map: 0x43,
        kind: 0x0300_0000,
        events: [
            Event::PictureUpgraded,
            Event::PictureUpgradedAgainstRow,
            Event::PictureUpgradedReaders,
            Event::PictureUpgradedMessage,
            Event::PictureUpgradedWriters,
            Event::PictureUpgradedCarries,
            Event::PictureUpgradedKeepsBack,
        ],
    },
];

impl Sends {
    /// Asks for URL 3 on a connection, with handler 9, from a page that a connection holds. What is sent with no host listed and with host 0,
    /// where the event occurs.
    fn both(&self, session: &mut Session, page: [u8; 2], on: u8, event: usize) -> [Vec<u8>; 2] {
        let [url, connection] = page;
        set_script(session, &[[self.op, 3, on, 9]]);
        open(session, connection.into(), 0x0100_0000 | u32::from(url));
        let response = [0x0B, url, connection, 0];
        notes(session, &response, self.events[event]);
        not_listed_and_listed(session, &response).map(|(number, output)| {
            assert_eq!(number, 0);
            output
        })
    }

    /// The request to a URL on a connection, with these bytes of cookies.
    fn request(&self, url: u8, connection: u8, cookies: &[u8]) -> Vec<u8> {
        let map = if cookies.is_empty() { 0 } else { 4 };
        let handler: &[u8] = if self.op == 5 { &[9] } else { &[] };
        [&[self.map | map, url, connection], cookies, handler].concat()
    }

    /// The word of a request to URL 0 from this page.
    fn word(&self, page: u32) -> u32 {
        match self.op {
            5 => self.kind | page << 16,
            _ => self.kind,
        }
    }
}

fn for_each_step(case: fn(Session, &Sends)) {
    for (name, feed) in FEEDS {
        for sends in &SENDS {
            println!("{name}, step {}", sends.op);
            case(Session::new(feed), sends);
        }
    }
}

#[test]
fn a_step_goes_to_the_partner() {
    for_each_step(|mut session, step| {
        let both = step.both(&mut session, [0, 0], 3, SENT);
        assert_eq!(both, [step.request(3, 3, &[]), step.request(0, 3, &[])]);
        assert_eq!(word(&session, 3), step.word(0));
    });
}

#[test]
fn a_step_carries_the_partners_cookies() {
    for_each_step(|mut session, step| {
        store_7(&mut session);
        let both = step.both(&mut session, [0, 0], 3, CARRIES);
        let with_7 = step.request(0, 3, &[1, 0, 0, 0, 7]);
        assert_eq!(both, [step.request(3, 3, &[]), with_7]);
        session.policy[POLICY_COOKIES] = HTTP_0;
        let both = step.both(&mut session, [0, 0], 3, KEEPS_BACK);
        let with_7 = step.request(3, 3, &[1, 0, 0, 0, 7]);
        assert_eq!(both, [with_7, step.request(0, 3, &[])]);
    });
}

#[test]
fn a_step_that_only_the_partners_labels_allow() {
    for_each_step(|mut session, step| {
        // Endpoint 0 is not among the writers of connection 0, and 16 is.
        let both = step.both(&mut session, [0, 0], 0, SENT_AGAINST_ROW);
        assert_eq!(both, [vec![], step.request(0, 0, &[])]);
        assert_eq!(word(&session, 0), step.word(0));
        // Not all readers are those of URL 3.
        set_row(&mut session, 0, [16, ALL, ALL]);
        let both = step.both(&mut session, [1, 1], 1, SENT_AGAINST_ROW);
        assert_eq!(both, [vec![], step.request(0, 1, &[])]);
        assert_eq!(word(&session, 1), step.word(1));
        // Endpoint 16 is not among the writers of URL 3, and is the page's writer.
        set_row(&mut session, 3, [0, HOST_0, HTTP_0]);
        let both = step.both(&mut session, [0, 0], 3, SENT_AGAINST_ROW);
        assert_eq!(both, [vec![], step.request(0, 3, &[])]);
    });
}

#[test]
fn a_step_that_the_partners_labels_forbid() {
    for_each_step(|mut session, step| {
        // The page's writers, 0 and 16, are not both writers of URL 0.
        let both = step.both(&mut session, [0, 3], 3, WRITERS);
        assert_eq!(both, [step.request(3, 3, &[]), vec![]]);
        assert_eq!(word(&session, 3), 0);
        // Not all readers are those of URL 0.
        set_row(&mut session, 3, [0, ALL, ALL]);
        let both = step.both(&mut session, [1, 1], 1, READERS);
        assert_eq!(both, [step.request(3, 1, &[]), vec![]]);
        // Endpoint 16 is not among the writers of connection 4.
        set_connection(&mut session, 4, HOST_0, HTTP_0);
        let both = step.both(&mut session, [3, 4], 4, MESSAGE);
        assert_eq!(both, [step.request(3, 4, &[]), vec![]]);
    });
}

/// The steps of a script are replaced one by one, also where it names the partner itself.
#[test]
fn a_script_of_several_requests() {
    for_each_feed(|mut session| {
        list_host_0(&mut session);
        let steps = [[5, 3, 3, 1], [7, 3, 0, 255], [7, 0, 2, 0], [5, 0, 3, 2]];
        set_script(&mut session, &steps);
        open(&mut session, 0, 0x0100_0000);
        let (output, steps) = session.accept(&[0x0B, 0, 0, 0]);
        let requests = [0x0B, 0, 3, 1, 0x43, 0, 0, 0x43, 0, 2, 0x0B, 0, 3, 2];
        assert_eq!((&output[..], steps), (&requests[..], 5));
        let words = [0, 2, 3].map(|connection| word(&session, connection));
        assert_eq!(words, [0x0300_0000, 0x0300_0000, 0x0200_0200]);
    });
}

// Numbers.

/// Number, output and steps of a request to this number, in each of the four places where URLs are replaced: a load, a redirect, steps 5 and 7. Each
/// starts with a document of this URL on this connection.
fn in_four_places(session: &mut Session, at: [u8; 2], number: u8) -> [(u32, Vec<u8>, u32); 4] {
    let [url, connection] = at;
    let load = [0x03, number, connection];
    let redirect = [0x23, url, connection, number];
    let response = [0x0B, url, connection, 0];
    let records: [(&[u8], u8); 4] = [(&load, 0), (&redirect, 0), (&response, 5), (&response, 7)];
    records.map(|(record, op)| {
        set_script(session, &[[op, number, connection, 9]]);
        open(session, connection.into(), 0x0100_0000 | u32::from(url));
        session.feed(record)
    })
}

/// Only numbers up to 63 have a partner; one whose low bits are those of URL 1 or 3 is out of range all the same.
#[test]
fn a_number_above_63_is_left_alone() {
    for_each_feed(|mut session| {
        set_row(&mut session, 0, [16, HOST_0, HOST_0]);
        set_row(&mut session, 2, [17, ALL, ALL]);
        list(&mut session, 0b11, &[(3, 0), (1, 2)]);
        for (row, partner, connection) in [(3, 0, 3), (1, 2, 1)] {
            let at = [partner, connection];
            let upgraded = [
                (0, vec![0x03, partner, connection], 0),
                (0, vec![0x03, partner, connection], 0),
                (0, vec![0x0B, partner, connection, 9], 2),
                (0, vec![0x43, partner, connection], 2),
            ];
            assert_eq!(in_four_places(&mut session, at, row), upgraded);
            for number in [64 + row, 128 + row, 192 + row, 255] {
                let (refused, ends) = ((6, vec![], 0), (0, vec![], 1));
                let none = [refused.clone(), refused, ends.clone(), ends];
                assert_eq!(in_four_places(&mut session, at, number), none, "{number}");
            }
        }
    });
}

/// With every host listed, an empty row has no partner.
#[test]
fn an_empty_row_is_left_alone() {
    for_each_feed(|mut session| {
        list(&mut session, 0xFFFF, &[(3, 0), (1, 2)]);
        open(&mut session, 3, 0x0100_0000);
        for number in [4, 63] {
            assert_eq!(session.refuse(&[0x03, number, 0]), 6);
            assert_eq!(session.refuse(&[0x23, 0, 3, number]), 6);
        }
    });
}

#[test]
fn other_numbers_are_asked_as_ever() {
    for_each_feed(|mut session| {
        list_host_0(&mut session);
        assert_eq!(session.refuse(&[0x03, 3, 32]), 6);
        assert_eq!(session.refuse(&[0x23, 0, 32, 3]), 6);
        assert_eq!(session.refuse(&[0x23, 4, 3, 3]), 6);
        assert_eq!(session.refuse(&[0x23, 0, 0, 3]), 7);
        open(&mut session, 0, 0x0100_0000);
        session.state[STATE_PRESENT] = 256;
        assert_eq!(session.refuse(&LOAD_3_ON_0), 4);
        session.scripts.pop();
        assert_eq!(session.refuse(&LOAD_3_ON_0), 3);
    });
}

/// An https URL, and an http URL of a host that is not listed, stay.
#[test]
fn what_has_no_partner_is_left_alone() {
    for_each_feed(|mut session| {
        list(&mut session, 0b10, &[(1, 2)]);
        assert_eq!(session.accept(&[0x03, 3, 3]).0, [0x03, 3, 3]);
        assert_eq!(session.accept(&[0x03, 0, 0]).0, [0x03, 0, 0]);
        assert_eq!(session.accept(&[0x03, 2, 1]).0, [0x03, 2, 1]);
        assert_eq!(session.accept(&[0x03, 1, 1]).0, [0x03, 2, 1]);
        open(&mut session, 3, 0x0100_0003);
        assert_eq!(session.accept(&[0x23, 3, 3, 3]).0, [0x03, 3, 3]);
    });
}

/// URLs 60 and 61 are http and https at host 0 like 3 and 0: each http row has a partner of its own.
#[test]
fn rows_of_one_host_may_have_two_partners() {
    for_each_feed(|mut session| {
        set_row(&mut session, 60, [0, HOST_0, HOST_0]);
        set_row(&mut session, 61, [16, HOST_0, HOST_0]);
        list(&mut session, 1, &[(3, 61), (60, 0)]);
        assert_eq!(session.accept(&[0x03, 3, 3]).0, [0x03, 61, 3]);
        assert_eq!(session.accept(&[0x03, 60, 3]).0, [0x03, 0, 3]);
        list(&mut session, 1, &[(3, 61), (60, 61)]);
        assert_eq!(session.accept(&[0x03, 60, 3]).0, [0x03, 61, 3]);
    });
}

// Responses, and the URL that a redirect leaves.

#[test]
fn a_response_names_the_partner() {
    for_each_feed(|mut session| {
        list_host_0(&mut session);
        session.accept(&LOAD_3_ON_3);
        notes(&session, &[0x0B, 3, 3, 0], Event::MatchPartner);
        notes(&session, &[0x23, 3, 3, 0], Event::MatchPartnerRedirect);
        assert_eq!(session.refuse(&[0x0B, 3, 3, 0]), 7);
        assert_eq!(session.refuse(&[0x0F, 3, 3, 1, 0, 0, 0, 7, 0]), 7);
        assert_eq!(session.refuse(&[0x23, 3, 3, 0]), 7);
        assert_eq!(session.refuse(&[0x23, 3, 3, 3]), 7);
        assert_eq!(session.accept(&[0x0B, 0, 3, 0]), (vec![], 1));
        open(&mut session, 3, 0x0200_0000);
        assert_eq!(session.refuse(&[0x13, 3, 3, 0, 0, 0, 1]), 7);
        assert_eq!(session.accept(&[0x13, 0, 3, 0, 0, 0, 1]), (vec![], 1));
        open(&mut session, 3, 0x0300_0000);
        assert_eq!(session.refuse(&[0x43, 3, 3]), 7);
        assert_eq!(session.accept(&[0x43, 0, 3]), (vec![], 0));
    });
}

/// A state that is lent may have URL 3 itself on a connection that fits it, also on one that does not fit its partner: a response is judged by
/// what the connection holds.
#[test]
fn a_connection_that_holds_the_http_row() {
    for_each_feed(|mut session| {
        list_host_0(&mut session);
        set_connection(&mut session, 4, HOST_0, HTTP_0);
        let responses: [(u32, &[u8], &[u8], u32); 3] = [
            (0x0100_0003, &[0x0B, 3, 4, 0], &[0x0B, 0, 4, 0], 1),
            (
                0x0203_0003,
                &[0x13, 3, 4, 0, 0, 0, 1],
                &[0x13, 0, 4, 0, 0, 0, 1],
                1,
            ),
            (0x0300_0003, &[0x43, 3, 4], &[0x43, 0, 4], 0),
        ];
        for (held, names_it, names_its_partner, steps) in responses {
            open(&mut session, 4, held);
            notes(&session, names_it, Event::ResponseHeldHttp);
            assert_eq!(session.refuse(names_its_partner), 7);
            assert_eq!(session.accept(names_it), (vec![], steps));
            assert_eq!(session.state, [0; STATE_WORDS]);
        }
    });
}

/// Connection 0 fits URL 0, and not URL 3, which it cannot hold.
#[test]
fn a_connection_that_fits_the_partner_alone() {
    for_each_feed(|mut session| {
        list_host_0(&mut session);
        for kind in [0x0100_0000, 0x0200_0000, 0x0300_0000] {
            open(&mut session, 0, kind | 3);
            assert_eq!(session.refuse(&[]), 4);
            open(&mut session, 0, kind);
            assert_eq!(session.refuse(&[]), 10);
        }
    });
}

/// The cookies of a response, or of a redirect, are those of host 0 in either case.
#[test]
fn cookies_that_come_for_the_http_row() {
    for_each_feed(|mut session| {
        list_host_0(&mut session);
        session.policy[POLICY_COOKIES + 1] = ALL;
        open(&mut session, 3, 0x0100_0003);
        session.accept(&[0x0F, 3, 3, 1, 0, 0, 0, 7, 0]);
        assert_eq!((session.state[0], session.state[STATE_PRESENT]), (7, 1));
        set_row(&mut session, 0, [16, HOST_0, HOST_0]);
        open(&mut session, 3, 0x0100_0003);
        let redirect = [0x27, 3, 3, 1, 0, 0, 0, 9, 3];
        notes(&session, &redirect, Event::RedirectHeldHttp);
        let request = [0x07, 0, 3, 1, 0, 0, 0, 9];
        assert_eq!(session.accept(&redirect), (request.to_vec(), 0));
        assert_eq!(word(&session, 3), 0x0100_0000);
    });
}

/// The page is URL 3: that of the connection, or the origin of a script's request. It is the origin of what its script or handler sends.
#[test]
fn a_page_is_not_replaced() {
    for_each_feed(|mut session| {
        list_host_0(&mut session);
        set_row(&mut session, 0, [16, HOST_0, HOST_0]);
        set_script(&mut session, &[[5, 3, 3, 6]]);
        let responses: [(u32, &[u8], Event); 2] = [
            (0x0100_0003, &[0x0B, 3, 3, 0], Event::StepSendHttpPage),
            (
                0x0203_0000,
                &[0x13, 0, 3, 0, 0, 0, 1],
                Event::StepSendHttpPageHandler,
            ),
        ];
        for (held, response, event) in responses {
            open(&mut session, 3, held);
            notes(&session, response, event);
            assert_eq!(session.accept(response), (vec![0x0B, 0, 3, 6], 2));
            assert_eq!(word(&session, 3), 0x0203_0600);
        }
    });
}

/// The origin is URL 3, and a redirect keeps it: to URL 3, which goes to its partner, and to the partner itself.
#[test]
fn an_origin_is_not_replaced() {
    for_each_feed(|mut session| {
        list_host_0(&mut session);
        set_row(&mut session, 0, [16, HOST_0, HOST_0]);
        open(&mut session, 3, 0x0203_0603);
        for redirect in [[0x23, 3, 3, 3], [0x23, 0, 3, 3], [0x23, 0, 3, 0]] {
            notes(&session, &redirect, Event::RedirectHttpOrigin);
            assert_eq!(session.accept(&redirect), (vec![0x0B, 0, 3, 6], 0));
            assert_eq!(word(&session, 3), 0x0203_0600);
        }
    });
}

// The policy.

#[test]
fn a_policy_has_every_word() {
    for_each_feed(|mut session| {
        list_host_0(&mut session);
        let policy = session.policy.clone();
        for length in [0, POLICY_HTTPS_HOSTS, POLICY_PARTNERS, POLICY_WORDS - 1] {
            session.policy.truncate(length);
            assert!(!is_well_formed(&mut session), "{length}");
            breaks(&session, Event::PolicyLength);
            session.policy = policy.clone();
        }
        assert!(is_well_formed(&mut session));
        session.policy.push(NO_PARTNER);
        assert!(!is_well_formed(&mut session));
    });
}

/// Hosts 2 to 15 have no URL, so nothing is asked of them; hosts 0 and 1 have an http row each, and it has no partner.
#[test]
fn each_bit_of_the_https_hosts() {
    for_each_feed(|mut session| {
        for bit in 0..32 {
            list(&mut session, 1 << bit, &[]);
            assert_eq!(
                is_well_formed(&mut session),
                (2..16).contains(&bit),
                "{bit}"
            );
            match bit {
                0 | 1 => breaks(&session, Event::PolicyPartnerMissing),
                16.. => breaks(&session, Event::PolicyHttpsHosts),
                _ => {}
            }
        }
        for (hosts, right) in [(0xFFFF, true), (0x1_FFFF, false), (ALL, false)] {
            list(&mut session, hosts, &[(3, 0), (1, 2)]);
            assert_eq!(is_well_formed(&mut session), right, "{hosts:x}");
        }
    });
}

/// Words that a partner may be by mistake: every byte, and those that a narrower type would turn into one.
fn partner_words() -> impl Iterator<Item = u32> {
    (0..1024).chain([0x1_0000, 0x00FF_0000, 0x8000_0000, ALL - 255, ALL])
}

/// With host 0 listed, URL 3 needs URL 0 as its partner: there is no other https row of that host.
#[test]
fn the_partner_of_a_listed_http_row() {
    for_each_feed(|mut session| {
        for partner in partner_words() {
            list(&mut session, 1, &[(3, partner)]);
            assert_eq!(is_well_formed(&mut session), partner == 0, "{partner}");
        }
    });
    let mut session = Session::new(reference::feed);
    for (partner, clause) in [
        (255, Event::PolicyPartnerMissing),
        (64, Event::PolicyPartnerAbove),
        (254, Event::PolicyPartnerAbove),
        (256, Event::PolicyPartnerAbove),
        (256 + 255, Event::PolicyPartnerAbove),
        (4, Event::PolicyPartnerEmpty),
        (63, Event::PolicyPartnerEmpty),
        (1, Event::PolicyPartnerHttp),
        (3, Event::PolicyPartnerHttp),
        (2, Event::PolicyPartnerHost),
    ] {
        list(&mut session, 1, &[(3, partner)]);
        breaks(&session, clause);
    }
}

/// No number above 63 is a row, also where the words that follow the rows, of cookies and of connections, would make it an https row of the host.
#[test]
fn a_partner_past_the_rows() {
    for_each_feed(|mut session| {
        for row in [1, 2] {
            set_row(&mut session, row, [255, 0, 0]);
        }
        for host in 0..16 {
            let https = 16 + host;
            set_row(&mut session, 3, [host, ALL, ALL]);
            set_row(&mut session, 0, [https, ALL, ALL]);
            for sets in [0, 1 << host, ALL] {
                set_row(&mut session, URLS, [https, sets, sets]);
                list(&mut session, 1 << host, &[(3, 0)]);
                assert!(is_well_formed(&mut session));
                list(&mut session, 1 << host, &[(3, 64)]);
                assert!(!is_well_formed(&mut session), "{host}");
                breaks(&session, Event::PolicyPartnerAbove);
            }
        }
        let past = URLS..POLICY_HTTPS_HOSTS / 3;
        for number in past.clone() {
            set_row(&mut session, number, [16 + 15, ALL, ALL]);
        }
        list(&mut session, 1 << 15, &[(3, 0)]);
        assert!(is_well_formed(&mut session));
        for number in past {
            list(&mut session, 1 << 15, &[(3, number as u32)]);
            assert!(!is_well_formed(&mut session), "{number}");
        }
    });
}

/// Every other row has 255: an https row of a listed host or of another, an http row of a host that is not listed, and an empty row, the last one
/// too. Nothing else will do, not the row itself and not an https row of the same host.
#[test]
fn a_partner_where_there_must_be_none() {
    for_each_feed(|mut session| {
        set_row(&mut session, 5, [16, HOST_0, HOST_0]);
        for hosts in [0, 1] {
            let listed: &[(usize, u32)] = if hosts == 1 { &[(3, 0)] } else { &[] };
            for row in [0, 1, 2, 4, 5, 63] {
                for partner in partner_words() {
                    list(&mut session, hosts, &[listed, &[(row, partner)]].concat());
                    let right = partner == 255;
                    assert_eq!(
                        is_well_formed(&mut session),
                        right,
                        "{hosts}: {row} {partner}"
                    );
                }
            }
        }
    });
    let mut session = Session::new(reference::feed);
    for (row, partner, clause) in [
        (0, 0, Event::PolicyPartnerOfHttps),
        (2, 0, Event::PolicyPartnerOfHttps),
        (1, 2, Event::PolicyPartnerNotListed),
        (4, 0, Event::PolicyPartnerOfEmpty),
        (63, 256 + 255, Event::PolicyPartnerOfEmpty),
    ] {
        list(&mut session, 1, &[(3, 0), (row, partner)]);
        breaks(&session, clause);
    }
    for row in [4, 63] {
        list(&mut session, 0, &[(row, 256 + 255)]);
        breaks(&session, Event::PolicyPartnerOfEmpty);
    }
}

/// An http row whose host has no https row cannot be listed, whatever its partner is.
#[test]
fn a_host_without_an_https_row() {
    for_each_feed(|mut session| {
        set_row(&mut session, 0, [255, 0, 0]);
        for partner in partner_words() {
            list(&mut session, 1, &[(3, partner)]);
            assert!(!is_well_formed(&mut session), "{partner}");
        }
        set_row(&mut session, 3, [255, 0, 0]);
        list(&mut session, 1, &[]);
        assert!(is_well_formed(&mut session));
    });
}

/// An https row of a listed host needs no http row beside it.
#[test]
fn a_host_without_an_http_row() {
    for_each_feed(|mut session| {
        set_row(&mut session, 3, [255, 0, 0]);
        list(&mut session, 1, &[]);
        assert!(is_well_formed(&mut session));
        assert_eq!(session.accept(&[0x03, 0, 0]).0, [0x03, 0, 0]);
    });
}

/// A pair of every host at every place: the http row goes to the https row, and nothing may be wrong with its partner.
#[test]
fn every_host_and_every_row() {
    for_each_feed(|mut session| {
        set_connection(&mut session, 0, 0, ALL);
        for row in 0..URLS {
            for place in 0..URLS {
                set_row(&mut session, place, [255, 0, 0]);
            }
            let (host, other) = (row as u32 % 16, (row + 29) % URLS);
            set_row(&mut session, row, [host, ALL, ALL]);
            set_row(&mut session, other, [16 + host, ALL, ALL]);
            list(&mut session, 1 << host, &[(row, other as u32)]);
            let request = [0x03, other as u8, 0];
            assert_eq!(session.accept(&[0x03, row as u8, 0]).0, request);
            list(&mut session, 1 << host, &[(row, row as u32)]);
            assert!(!is_well_formed(&mut session), "{row}");
            list(&mut session, 1 << host, &[(row, NO_PARTNER)]);
            assert!(!is_well_formed(&mut session), "{row}");
            list(&mut session, 0xFFFF ^ 1 << host, &[(row, other as u32)]);
            assert!(!is_well_formed(&mut session), "{row}");
            list(&mut session, 0xFFFF ^ 1 << host, &[]);
            assert_eq!(
                session.accept(&[0x03, row as u8, 0]).0,
                [0x03, row as u8, 0]
            );
            session.state.fill(0);
        }
    });
}

/// An https row of a listed host keeps its number: a partner that had a partner would be one where there must be none.
#[test]
fn a_partner_has_no_partner() {
    for_each_feed(|mut session| {
        set_row(&mut session, 5, [16, HOST_0, HOST_0]);
        list(&mut session, 1, &[(3, 0), (0, 5)]);
        assert!(!is_well_formed(&mut session));
        list(&mut session, 1, &[(3, 5)]);
        assert_eq!(session.accept(&[0x03, 3, 3]).0, [0x03, 5, 3]);
        assert_eq!(session.accept(&[0x03, 0, 0]).0, [0x03, 0, 0]);
    });
}

// The program walk.

/// The example of document 01 with host 0 listed: URL 3 is typed where URL 0 is meant, and the last load but one has the cookie. A response that
/// names URL 3 is not awaited.
#[test]
fn walk_prints_the_partner() {
    let records: [&[u8]; 6] = [
        &[0x03, 3, 0],
        &[0x0F, 3, 0, 1, 0, 0, 0, 7, 0],
        &[0x0F, 0, 0, 1, 0, 0, 0, 7, 0],
        &[0x03, 3, 3],
        &[0x03, 3, 1],
        &[],
    ];
    let with_length = |record: &&[u8]| [&[record.len() as u8], *record].concat();
    let mut input = walk_input(&records.iter().flat_map(with_length).collect::<Vec<_>>());
    let mut set = |place: usize, word: u32| {
        input[4 * place..4 * place + 4].copy_from_slice(&word.to_be_bytes());
    };
    set(POLICY_HTTPS_HOSTS, 1);
    set(POLICY_PARTNERS + 3, 0);
    let lines = "\
1 0 3 0 32
> 0 0 00
2 7 0 0 32
3 0 0 1 32
4 0 8 0 32
> 0 3 01
5 8 0 0 1
6 10 0 0 32
end 3 3
";
    assert_eq!(reference::walk(&input), lines);
}
