//! Document 01's cases a to j under its policy P, with their events and reasons.

mod post;

use explain::{Did, End, Event, Owner, Set, Why};
use post::{document, lacks, lacks_event, lacks_message, policy_p, Post};
use zolherima::{Accepted, Cookies, Record, Refusal, Request, RequestKind, Step};

const READERS: Set = Set::Readers;
const WRITERS: Set = Set::Writers;

/// The canteen's response on connection 0 that brings 7 for key 0.
const RESPONSE: [u8; 9] = [0x0f, 0, 0, 1, 0, 0, 0, 7, 0];

fn after_a() -> Post {
    let mut post = Post::new(&policy_p());
    post.events(&Record::load(0, 0));
    post
}

fn after_e() -> Post {
    let mut post = after_a();
    post.events(&RESPONSE);
    post
}

fn document_request(url: u8, connection: u8, cookies: Cookies) -> Request {
    Request {
        kind: RequestKind::Document,
        url,
        connection,
        cookies,
    }
}

fn sevens() -> Cookies {
    Cookies::NONE.with(0, 7).unwrap()
}

#[test]
fn a_load_opens_and_sends() {
    let explained = Post::new(&policy_p()).feed(&Record::load(0, 0));
    let opened = Event::Opened {
        connection: 0,
        pending: document(0),
        replaced: None,
    };
    let sent = Event::Sent {
        request: document_request(0, 0, Cookies::NONE),
        withheld: vec![],
    };
    assert_eq!(explained.events, [opened, sent]);
    assert_eq!(explained.outcome, Ok(Accepted { bytes: 3, steps: 0 }));
    assert_eq!(explained.out, [0x03, 0, 0]);
}

#[test]
fn a_second_load_tells_what_it_replaces() {
    let events = after_a().events(&Record::load(0, 0));
    let opened = Event::Opened {
        connection: 0,
        pending: document(0),
        replaced: Some(document(0)),
    };
    assert_eq!(events[0], opened);
}

#[test]
fn b_a_reader_that_the_url_lacks() {
    let explained = Post::new(&policy_p()).feed(&Record::load(0, 1));
    let lack = lacks(
        (READERS, Owner::Url(0)),
        !0x0001_0001,
        (READERS, Owner::Connection(1)),
    );
    let missing = post::endpoint(1);
    let refused = (Refusal::ReadersForbid { missing }, Why::Labels(vec![lack]));
    assert_eq!(explained.outcome, Err(refused));
    assert_eq!((explained.events, explained.out), (vec![], vec![]));
}

#[test]
fn c_an_address_that_the_connection_lacks() {
    let refused = Post::new(&policy_p()).refused(&Record::load(3, 0));
    let lack = lacks_message((WRITERS, Owner::Connection(0)), 0, 3);
    let missing = post::endpoint(0);
    assert_eq!(
        refused,
        (Refusal::WritersForbid { missing }, Why::Labels(vec![lack]))
    );
}

#[test]
fn d_names_that_there_are_not() {
    let mut post = Post::new(&policy_p());
    let mut unknown = |url, connection| {
        let (refusal, why) = post.refused(&Record::load(url, connection));
        assert_eq!(refusal, Refusal::NameUnknown);
        why
    };
    assert_eq!(unknown(4, 0), Why::NoUrl { url: 4 });
    assert_eq!(unknown(64, 0), Why::NoUrl { url: 64 });
    assert_eq!(unknown(0, 32), Why::NoConnection { connection: 32 });
    assert_eq!(unknown(4, 32), Why::NoUrl { url: 4 });
}

#[test]
fn e_a_response_stores_frees_and_runs() {
    let events = after_a().events(&RESPONSE);
    let expected = [
        Event::Stored {
            host: 0,
            key: 0,
            value: 7,
            before: None,
        },
        Event::Freed { connection: 0 },
        Event::ScriptStarted {
            script: 0,
            page: 0,
            connection: 0,
            registers: [0; 4],
        },
        Event::StepRan {
            place: 0,
            step: Step::End,
            did: Did::Nothing,
            registers: [0; 4],
        },
        Event::ScriptEnded {
            steps: 1,
            why: End::Step0 { place: 0 },
        },
    ];
    assert_eq!(events, expected);
}

#[test]
fn f_the_next_load_carries_the_cookie() {
    let explained = after_e().feed(&Record::load(0, 0));
    let sent = Event::Sent {
        request: document_request(0, 0, sevens()),
        withheld: vec![],
    };
    assert_eq!(explained.events[1], sent);
    assert_eq!(explained.out, [0x07, 0, 0, 1, 0, 0, 0, 7]);
}

#[test]
fn g_a_load_by_http_withholds_it() {
    let explained = after_e().feed(&Record::load(3, 3));
    let cookie = Owner::Cookie { host: 0, key: 0 };
    let sent = Event::Sent {
        request: document_request(3, 3, Cookies::NONE),
        withheld: vec![(0, vec![lacks_message((READERS, cookie), 0, 3)])],
    };
    assert_eq!(explained.events[1], sent);
    assert_eq!(explained.out, [0x03, 3, 3]);
}

#[test]
fn h_a_redirect_lacks_two_things_and_stores_nothing() {
    let mut post = after_a();
    let (refusal, why) = post.refused(&Record::redirect(0, 0, &sevens(), 2));
    let connection = Owner::Connection(0);
    let event = lacks_event((READERS, connection), 1, 2);
    let message = lacks_message((WRITERS, connection), 17, 2);
    let missing = post::endpoint(1);
    assert_eq!(refusal, Refusal::ReadersForbid { missing });
    assert_eq!(why, Why::Labels(vec![event, message]));
    assert_eq!(post.state.cookie(0, 0), None);
}

#[test]
fn i_a_writer_that_the_target_lacks() {
    let mut post = Post::new(&policy_p());
    post.events(&Record::load(1, 1));
    let (refusal, why) = post.refused(&Record::redirect(1, 1, &Cookies::NONE, 2));
    let lack = lacks(
        (WRITERS, Owner::Url(2)),
        !0x0003_0000,
        (WRITERS, Owner::Connection(1)),
    );
    let missing = post::endpoint(0);
    assert_eq!(refusal, Refusal::WritersForbid { missing });
    assert_eq!(why, Why::Labels(vec![lack]));
}

#[test]
fn j_malformed_records() {
    let mut post = Post::new(&policy_p());
    let mut malformed = |record: &[u8], refusal| {
        assert_eq!(post.refused(record), (refusal, Why::Malformed(refusal)));
    };
    malformed(&[], Refusal::KindUnknown);
    malformed(&[0x07, 0, 0, 1, 0, 0, 0, 7], Refusal::KindUnknown);
    malformed(&[0x0f, 0, 0, 0, 0], Refusal::KeyMapEmpty);
    malformed(&[0x0f, 0, 0], Refusal::CutOrTooLong);
    malformed(&[0x03, 0, 0, 0], Refusal::CutOrTooLong);
}

#[test]
fn a_cookie_is_stored_over_another_or_passed_over() {
    let mut post = after_e();
    post.events(&Record::load(0, 0));
    let both = Cookies::NONE
        .with(0, 8)
        .and_then(|cookies| cookies.with(1, 9));
    let events = post.events(&Record::document_response(0, 0, &both.unwrap(), 0));
    let stored = Event::Stored {
        host: 0,
        key: 0,
        value: 8,
        before: Some(7),
    };
    // key 1 has nobody as a writer
    let lack = lacks(
        (WRITERS, Owner::Cookie { host: 0, key: 1 }),
        0x0001_0000,
        (WRITERS, Owner::Connection(0)),
    );
    let passed_over = Event::PassedOver {
        host: 0,
        key: 1,
        value: 9,
        lacks: vec![lack],
    };
    assert_eq!(events[..2], [stored, passed_over]);
}
