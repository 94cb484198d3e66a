//! Entries and partners: cases worked out by hand under document 01's small policy P, with host 0 listed and one or both of its URLs entries.
//!
//! In P, URLs 0 and 3 are https and http at host 0. URL 0 has readers {0, 16} and writer 16, URL 3 has readers and writers {0, 16}; so has
//! connection 3.

mod common;
#[path = "common/setup.rs"]
mod setup;

use common::{for_each_feed, Session};
use reference::Event;
use setup::{breaks, is_well_formed, list, notes, open, set_entry, set_script, ALL};

/// Neither of the two URLs has the writers of connection 3, which holds URL 0.
fn set_pair(session: &mut Session, named_is_entry: bool, partner_is_entry: bool) {
    session.policy[3 * 3 + 2] = 0;
    set_entry(session, 3, named_is_entry);
    set_entry(session, 0, partner_is_entry);
    open(session, 3, 0x0100_0000);
}

const PAIRS: [(bool, bool); 4] = [(false, false), (false, true), (true, false), (true, true)];

/// What is sent to URL 3 where no host is listed, and in its place to URL 0 where host 0 is, by a record: nothing where the URL is no entry.
fn pair_sends(session: &mut Session, record: &[u8], requests: [&[u8]; 2]) {
    for (named, partner) in PAIRS {
        for (hosts, partners) in [(0, &[][..]), (1, &[(3, 0)][..])] {
            list(session, hosts, partners);
            set_pair(session, named, partner);
            let is_entry = if hosts == 0 { named } else { partner };
            let sent = session.feed(record).1;
            let request = requests[hosts as usize];
            let expected = if is_entry { request } else { &[] };
            assert_eq!(sent, expected, "{named} {partner}, {hosts}");
        }
    }
}

#[test]
fn the_row_after_the_partner_decides() {
    for_each_feed(|mut session| {
        let requests = [&[0x03, 3, 3][..], &[0x03, 0, 3]];
        pair_sends(&mut session, &[0x23, 0, 3, 3], requests);
        let steps: [([u8; 4], [&[u8]; 2]); 2] = [
            ([5, 3, 3, 6], [&[0x0B, 3, 3, 6], &[0x0B, 0, 3, 6]]),
            ([7, 3, 3, 6], [&[0x43, 3, 3], &[0x43, 0, 3]]),
        ];
        for (step, requests) in steps {
            set_script(&mut session, &[step]);
            pair_sends(&mut session, &[0x0B, 0, 3, 0], requests);
        }
    });
}

/// A load needs no entry, whichever of the two is one.
#[test]
fn a_load_goes_to_the_partner_of_an_entry() {
    for_each_feed(|mut session| {
        list(&mut session, 1, &[(3, 0)]);
        for (named, partner) in PAIRS {
            set_pair(&mut session, named, partner);
            assert_eq!(session.accept(&[0x03, 3, 3]).0, [0x03, 0, 3]);
        }
    });
}

#[test]
fn what_is_noted_of_a_pair() {
    let mut session = Session::new(reference::feed);
    list(&mut session, 1, &[(3, 0)]);
    let load = [0x03, 3, 3];
    let redirect = [0x23, 0, 3, 3];
    let response = [0x0B, 0, 3, 0];
    let records: [(&[u8], u8, Event, Event); 4] = [
        (&load, 0, Event::LoadPartnerEntry, Event::LoadNamedEntry),
        (
            &redirect,
            0,
            Event::RedirectPartnerEntry,
            Event::RedirectNamedEntry,
        ),
        (&response, 5, Event::SendPartnerEntry, Event::SendNamedEntry),
        (
            &response,
            7,
            Event::PicturePartnerEntry,
            Event::PictureNamedEntry,
        ),
    ];
    for (record, op, partner_is_entry, named_is_entry) in records {
        set_script(&mut session, &[[op, 3, 3, 6]]);
        set_pair(&mut session, false, true);
        notes(&session, record, partner_is_entry);
        set_pair(&mut session, true, false);
        notes(&session, record, named_is_entry);
    }
}

/// An http row of a listed host needs a partner, and no other row has one, whichever of them are entries.
#[test]
fn the_partner_of_an_entry() {
    for_each_feed(|mut session| {
        for (named, partner) in PAIRS {
            set_pair(&mut session, named, partner);
            session.state.fill(0);
            for word in (0..300).chain([0x1_0000, ALL]) {
                list(&mut session, 1, &[(3, word)]);
                assert_eq!(is_well_formed(&mut session), word == 0, "{word}");
                list(&mut session, 1, &[(3, 0), (0, word)]);
                assert_eq!(is_well_formed(&mut session), word == 255, "{word}");
                list(&mut session, 0, &[(3, word)]);
                assert_eq!(is_well_formed(&mut session), word == 255, "{word}");
            }
        }
    });
}

#[test]
fn what_is_noted_of_a_wrong_partner() {
    let mut session = Session::new(reference::feed);
    for row in 0..4 {
        set_entry(&mut session, row, true);
    }
    for (hosts, row, partner, clause) in [
        (1, 3, 255, Event::PolicyPartnerMissingEntry),
        (1, 3, 3, Event::PolicyPartnerHttpEntry),
        (1, 3, 1, Event::PolicyPartnerHttpEntry),
        (1, 3, 2, Event::PolicyPartnerHostEntry),
        (0, 3, 0, Event::PolicyPartnerNotListedEntry),
        (0, 0, 0, Event::PolicyPartnerOfHttpsEntry),
    ] {
        list(&mut session, hosts, &[(row, partner)]);
        breaks(&session, clause);
    }
}
