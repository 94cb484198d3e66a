//! What remains and what is compared, as documents 01 and 02 read, in document 01's small post and near it.

use cases::labels::{CONNECTIONS_AT, COOKIES_AT, ENTRY, HTTPS_HOSTS_AT, PARTNERS_AT, STATE_WORDS};
use cases::policy::document;
use cases::record::{make_record, Fields};
use cases::{Random, Session, Setting};
use reference::layout::OUTPUT_BYTES;
use reference::numbers::{CUT_OR_TOO_LONG, KEY_MAP_EMPTY, KIND_UNKNOWN, NAME_UNKNOWN};

use crate::record::{read_input, read_requests};
use crate::rule::{Forgery, Rule, Secrecy};
use crate::scope::{Scope, Struck};

/// Endpoints, as sets.
const HTTP_0: u32 = 1;
const HTTP_1: u32 = 1 << 1;
const HTTPS_0: u32 = 1 << 16;
const HTTPS_1: u32 = 1 << 17;

const LOAD_0: [u8; 3] = [0x03, 0, 0];
const LOAD_1: [u8; 3] = [0x03, 1, 1];
/// A response of URL 0 on connection 0, and of URL 1 on connection 1.
const RESPONSE_0: [u8; 4] = [0x0b, 0, 0, 0];
const RESPONSE_1: [u8; 4] = [0x0b, 1, 1, 0];
/// The first with cookie 0, with cookie 1, and with both.
const COOKIE_0: [u8; 9] = [0x0f, 0, 0, 0x01, 0, 0, 0, 7, 0];
const COOKIE_1: [u8; 9] = [0x0f, 0, 0, 0x02, 0, 0, 0, 8, 0];
const COOKIES: [u8; 13] = [0x0f, 0, 0, 0x03, 0, 0, 0, 7, 0, 0, 0, 8, 0];

/// The small post with a second cookie of host 0, which these may read and write.
fn post_with(readers: u32, writers: u32) -> Vec<u32> {
    let mut policy = document();
    policy[COOKIES_AT + 2..COOKIES_AT + 4].copy_from_slice(&[readers, writers]);
    policy
}

fn assert_remains(scope: &Scope, record: &[u8], remains: &[u8]) {
    let expected = read_input(remains).expect("it is well formed");
    assert_eq!(scope.remains(record), Ok(expected));
}

fn assert_struck(scope: &Scope, record: &[u8]) {
    assert!(scope.remains(record).is_err(), "{record:02x?}");
}

fn seen(scope: &Scope, request: &[u8]) -> Option<Fields> {
    let requests = read_requests(request).expect("it is a request");
    scope.view_request(&requests[0])
}

#[test]
fn who_reads_neither_url_nor_connection_sees_nothing_of_them() {
    let scope = Scope::of(&Secrecy, HTTP_1, &document());
    assert_struck(&scope, &LOAD_0);
    assert_struck(&scope, &RESPONSE_0);
    assert_struck(&scope, &[0x23, 0, 0, 1]);
    assert_remains(&scope, &LOAD_1, &LOAD_1);
    assert_remains(&scope, &RESPONSE_1, &RESPONSE_1);
}

#[test]
fn a_forger_sends_on_connections_that_he_may_write() {
    let scope = Scope::of(&Forgery, HTTP_1, &document());
    assert_struck(&scope, &RESPONSE_1);
    assert_struck(&scope, &[0x23, 1, 1, 2]);
    assert_remains(&scope, &RESPONSE_0, &RESPONSE_0);
    assert_remains(&scope, &LOAD_0, &LOAD_0);
    assert_remains(&scope, &LOAD_1, &LOAD_1);
}

#[test]
fn cookies_are_struck_one_by_one() {
    let hidden = Scope::of(&Secrecy, HTTP_0, &post_with(HTTP_0, 0));
    assert_remains(&hidden, &COOKIES, &COOKIE_1);
    assert_remains(&hidden, &COOKIE_0, &RESPONSE_0);
    let forged = Scope::of(&Forgery, HTTPS_1, &post_with(0, HTTPS_1));
    assert_remains(&forged, &COOKIES, &COOKIE_0);
    assert_remains(&forged, &COOKIE_1, &RESPONSE_0);
}

#[test]
fn what_is_malformed_or_names_nothing_is_struck() {
    for rule in [&Secrecy as &dyn Rule, &Forgery] {
        for set in [0, HTTP_0, u32::MAX] {
            let scope = Scope::of(rule, set, &document());
            assert_eq!(scope.remains(&[0x03, 0]), Err(Struck::Malformed));
            for record in [&[0x03, 4, 0][..], &[0x03, 64, 0], &[0x03, 0, 32]] {
                assert_eq!(scope.remains(record), Err(Struck::UnknownName));
            }
            for record in [&[0x0b, 0, 0, 16][..], &[0x23, 0, 0, 4]] {
                assert_eq!(scope.remains(record), Err(Struck::UnknownName));
            }
        }
    }
}

/// A record is malformed where the monitor answers 10, 12 or 11, and 6 fits it where the monitor answers 6.
#[test]
fn the_reference_agrees() {
    for case in 0..2_000 {
        let random = Random::of_case(1, case);
        let setting = Setting::random(&random);
        let scope = Scope::of(&Forgery, random.word(), &setting.policy);
        let mut session = Session::start(setting);
        for _ in 0..16 {
            let record = session.record(make_record, &random);
            let (state, mut out) = (&mut session.state, [0; OUTPUT_BYTES]);
            let Setting {
                policy, scripts, ..
            } = &session.setting;
            let number = reference::feed(policy, scripts, state, &record, &mut out).number;
            let remains = scope.remains(&record);
            let is_malformed = [KIND_UNKNOWN, KEY_MAP_EMPTY, CUT_OR_TOO_LONG].contains(&number);
            assert_eq!(remains == Err(Struck::Malformed), is_malformed);
            let is_unknown = number == NAME_UNKNOWN;
            assert_eq!(remains == Err(Struck::UnknownName), is_unknown);
        }
    }
}

/// Row 3, http at host 0, becomes row 0 by https: a load of it is judged by row 0 and is one of row 0, as is a redirect to it.
#[test]
fn a_partner_is_asked_for_in_place_of_a_url() {
    let mut policy = document();
    policy[HTTPS_HOSTS_AT] = 1;
    policy[PARTNERS_AT + 3] = 0;
    policy[3 * 3 + 1] = u32::MAX;
    let load = [0x03, 3, 0];
    assert_struck(&Scope::of(&Secrecy, HTTP_1, &policy), &load);
    let scope = Scope::of(&Secrecy, HTTP_0, &policy);
    assert_remains(&scope, &load, &LOAD_0);
    assert_remains(&scope, &[0x23, 0, 0, 3], &[0x23, 0, 0, 0]);
    assert_remains(&scope, &[0x0b, 3, 0, 0], &[0x0b, 3, 0, 0]);
}

#[test]
fn a_request_is_seen_by_its_event_and_its_cookies_by_its_message() {
    let (plain, with) = ([0x03, 0, 0], [0x07, 0, 0, 1, 0, 0, 0, 7]);
    let sees = |set| Scope::of(&Secrecy, set, &document());
    assert_eq!(seen(&sees(HTTPS_0), &with), None);
    assert_eq!(seen(&sees(HTTP_0), &with), seen(&sees(HTTP_0), &plain));
    let all = seen(&sees(HTTP_0 | HTTPS_0), &with).expect("it is seen");
    assert_eq!((all.map, all.keys, all.values[0]), (0x03, 1, 7));
}

#[test]
fn a_request_is_guarded_where_a_forger_may_not_write_it() {
    let with = [0x07, 0, 0, 3, 0, 0, 0, 7, 0, 0, 0, 8];
    let mut policy = post_with(0, HTTP_1);
    assert_eq!(seen(&Scope::of(&Forgery, HTTPS_0, &policy), &with), None);
    let guarded = seen(&Scope::of(&Forgery, HTTP_1, &policy), &with).expect("it is guarded");
    assert_eq!(
        (guarded.keys, guarded.values[..2].to_vec()),
        (1, vec![7, 0])
    );
    policy[0] += ENTRY;
    assert_eq!(seen(&Scope::of(&Forgery, HTTP_1, &policy), &with), None);
}

/// A policy that 2 refuses: nothing remains, and all is compared that the rule compares.
#[test]
fn a_policy_that_is_refused_shows_all() {
    let mut policy = document();
    policy[CONNECTIONS_AT + 1] = u32::MAX;
    let state = [7; STATE_WORDS];
    for rule in [&Secrecy as &dyn Rule, &Forgery] {
        for policy in [&policy[..], &policy[1..], &[]] {
            let scope = Scope::of(rule, 0, policy);
            assert_eq!(scope.remains(&LOAD_0), Err(Struck::WithAll));
            let request = seen(&scope, &LOAD_0).expect("it is compared");
            assert_eq!(request.map, 0x03);
            let is_whole = scope.view_state(&state) == state;
            assert_eq!(is_whole, rule.compares_states());
        }
    }
}
