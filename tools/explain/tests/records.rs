//! What is not awaited or not there, redirects, pictures, partners and entries.

mod post;

use explain::{Event, Owner, Set, Why};
use post::{document, lacks, lacks_message, picture, policy_p, script_request, Post};
use zolherima::{Cookies, PolicyBuilder, Record, Refusal, Request, RequestKind, Step, Url};

const NONE: &Cookies = &Cookies::NONE;

/// Everything may go anywhere: URLs 0 and 1 by http and https at host 0, URL 2 by https at host 1, and connections 0 and 1.
fn open_post() -> PolicyBuilder {
    let all = u32::MAX;
    let mut policy = PolicyBuilder::new();
    policy
        .url(0, post::url(0, all, all))
        .url(1, post::url(16, all, all))
        .url(2, post::url(17, all, all))
        .connection(0, post::connection(all, all))
        .connection(1, post::connection(all, all))
        .cookie(1, 3, post::labels(all, all));
    policy
}

/// The same, where host 0 is always https and URL 1 the partner of URL 0.
fn https_post() -> PolicyBuilder {
    let mut policy = open_post();
    policy.always_https(0).partner(0, 1);
    policy
}

fn request(kind: RequestKind, url: u8, connection: u8) -> Event {
    let request = Request {
        kind,
        url,
        connection,
        cookies: Cookies::NONE,
    };
    Event::Sent {
        request,
        withheld: vec![],
    }
}

fn opened(connection: u32, pending: zolherima::Pending) -> Event {
    Event::Opened {
        connection,
        pending,
        replaced: None,
    }
}

#[test]
fn names_are_looked_at_in_order() {
    let mut post = Post::new(&open_post());
    let mut unknown = |record: &[u8]| {
        let (refusal, why) = post.refused(record);
        assert_eq!(refusal, Refusal::NameUnknown);
        why
    };
    let redirect = |connection, target| Record::redirect(0, connection, NONE, target);
    assert_eq!(unknown(&redirect(32, 9)), Why::NoTarget { target: 9 });
    let above = Why::NoConnection { connection: 32 };
    assert_eq!(unknown(&redirect(32, 2)), above);
    let response = |connection| Record::document_response(0, connection, NONE, 16);
    assert_eq!(unknown(&response(32)), above);
    assert_eq!(unknown(&response(0)), Why::NoScript { script: 16 });
}

#[test]
fn a_connection_awaits_one_url_and_one_kind() {
    let mut post = Post::new(&open_post());
    let response = Record::document_response(0, 0, NONE, 0);
    assert_eq!(post.refused(&response), (Refusal::NotAwaited, Why::Free));
    post.events(&Record::load(2, 0));
    assert_eq!(
        post.refused(&response),
        (Refusal::NotAwaited, Why::HoldsAnother { url: 2 })
    );
    let other = Why::OtherKind {
        pending: document(2),
    };
    let picture = Record::picture_response(2, 0, NONE);
    assert_eq!(post.refused(&picture), (Refusal::NotAwaited, other));
    let value = Record::script_response(2, 0, NONE, 5);
    assert_eq!(post.refused(&value).0, Refusal::NotAwaited);
}

#[test]
fn a_redirect_stores_for_the_url_that_it_leaves() {
    let mut post = Post::new(&open_post());
    post.events(&Record::load(2, 0));
    let nine = Cookies::NONE.with(3, 9).unwrap();
    let events = post.events(&Record::redirect(2, 0, &nine, 1));
    let stored = Event::Stored {
        host: 1,
        key: 3,
        value: 9,
        before: None,
    };
    let moved = Event::Moved {
        connection: 0,
        from: 2,
        to: 1,
    };
    assert_eq!(
        events,
        [stored, moved, request(RequestKind::Document, 1, 0)]
    );
    assert_eq!(post.state.pending(0), Some(document(1)));
}

#[test]
fn a_picture_is_requested_redirected_and_runs_nothing() {
    let show = Step::Picture {
        url: 2,
        connection: 1,
    };
    let mut post = Post::new(&open_post()).script(0, &[show]);
    post.events(&Record::load(0, 0));
    let events = post.events(&Record::document_response(0, 0, NONE, 0));
    assert_eq!(
        events[3..5],
        [opened(1, picture(2)), request(RequestKind::Picture, 2, 1)]
    );
    let redirected = post.events(&Record::redirect(2, 1, NONE, 1));
    assert_eq!(redirected[1], request(RequestKind::Picture, 1, 1));
    let events = post.events(&Record::picture_response(1, 1, NONE));
    assert_eq!(events, [Event::Freed { connection: 1 }]);
}

#[test]
fn a_script_response_runs_the_handler_for_the_origin() {
    let ask = Step::Request {
        url: 2,
        connection: 0,
        handler: 5,
    };
    let mut post = Post::new(&open_post()).script(0, &[ask]);
    post.events(&Record::load(0, 0));
    let events = post.events(&Record::document_response(0, 0, NONE, 0));
    // the connection of the response is free by then
    assert_eq!(events[3], opened(0, script_request(2, 0, 5)));
    post.events(&Record::redirect(2, 0, NONE, 1));
    assert_eq!(post.state.pending(0), Some(script_request(1, 0, 5)));
    let events = post.events(&Record::script_response(1, 0, NONE, 77));
    let started = Event::ScriptStarted {
        script: 5,
        page: 0,
        connection: 0,
        registers: [77, 0, 0, 0],
    };
    assert_eq!(events[1], started);
}

#[test]
fn the_partner_is_asked_for() {
    let asked = Event::AskedInstead { named: 0, asked: 1 };
    let ask = Step::Request {
        url: 0,
        connection: 1,
        handler: 0,
    };
    let mut post = Post::new(&https_post()).script(0, &[ask]);
    let loaded = [
        asked.clone(),
        opened(0, document(1)),
        request(RequestKind::Document, 1, 0),
    ];
    assert_eq!(post.events(&Record::load(0, 0)), loaded);
    // what arrives names the partner
    let by_http = Record::document_response(0, 0, NONE, 0);
    assert_eq!(post.refused(&by_http).1, Why::HoldsAnother { url: 1 });
    let events = post.events(&Record::document_response(1, 0, NONE, 0));
    assert!(matches!(events[2], Event::StepRan { .. }));
    assert_eq!(
        events[3..5],
        [asked.clone(), opened(1, script_request(1, 1, 0))]
    );
    post.events(&Record::load(2, 0));
    let events = post.events(&Record::redirect(2, 0, NONE, 0));
    assert_eq!(events[0], asked);
}

#[test]
fn the_partners_sets_decide() {
    let mut policy = https_post();
    policy.url(1, post::url(16, 1, 0));
    let explained = Post::new(&policy).feed(&Record::load(0, 0));
    let asked = Event::AskedInstead { named: 0, asked: 1 };
    assert_eq!(explained.events, [asked]);
    let lack = lacks(
        (Set::Readers, Owner::Url(1)),
        !1,
        (Set::Readers, Owner::Connection(0)),
    );
    assert_eq!(explained.outcome.unwrap_err().1, Why::Labels(vec![lack]));
}

#[test]
fn a_name_that_is_not_there_is_told_before_any_partner() {
    let mut post = Post::new(&https_post());
    let explained = post.feed(&Record::load(0, 32));
    assert_eq!(explained.events, []);
    let explained = post.feed(&Record::redirect(2, 0, NONE, 0));
    assert_eq!(explained.events, []);
    assert_eq!(explained.outcome.unwrap_err().1, Why::Free);
}

#[test]
fn an_entry_may_be_led_to_by_anyone() {
    let mut policy = policy_p();
    let entry = |is_entry| Url {
        is_entry,
        ..post::url(17, u32::MAX, 0x0003_0000)
    };
    policy.url(2, entry(true));
    let mut post = Post::new(&policy);
    post.events(&Record::load(1, 1));
    post.events(&Record::redirect(1, 1, NONE, 2));
    // its address is still asked of the connection
    let mut narrow = post::connection(u32::MAX, u32::MAX);
    narrow.writers = post::set(!(1 << 17));
    policy.connection(1, narrow);
    let mut post = Post::new(&policy);
    post.events(&Record::load(1, 1));
    let refused = post.refused(&Record::redirect(1, 1, NONE, 2));
    let lack = lacks_message((Set::Writers, Owner::Connection(1)), 17, 2);
    assert_eq!(refused.1, Why::Labels(vec![lack]));
}
