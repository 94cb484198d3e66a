//! The test can fail: monitors that leave a single condition out are told by the rule that needs it, and by that rule alone.

use cases::labels::{Pending, CONNECTIONS};
use cases::list::DOCUMENT_REQUEST;
use cases::record::LOAD;
use reference::numbers::{NOT_AWAITED, POLICY_BAD};
use reference::{ConnectionTag, CookieTag, Documents, EndpointSet, Rules, Url};

use crate::case::Case;
use crate::compare::{compare, side_by_side};
use crate::record::read_input;
use crate::rule::{Forgery, Rule, Secrecy};
use crate::run::Monitor;
use crate::tally::Tally;

/// So many cases are passed where nothing is wrong; a fault is found in them or, where it is rare, in so many more.
const HONEST_CASES: u64 = 400;
const CASES: u64 = 4_096;
const SEED: u64 = 1;

/// Rules without one condition: its name, of what it is asked, and what it now always says.
macro_rules! without {
    ($($name:ident: $condition:ident($of:ty, $and:ty) -> $answer:ty = $always:expr;)*) => {
        $(struct $name;

        impl Rules for $name {
            fn $condition(&self, _: &$of, _: &$and) -> $answer {
                $always
            }
        })*
    };
}

without! {
    StoreWriters: store_writers(ConnectionTag, CookieTag) -> bool = true;
    ReadWriters: read_writers(ConnectionTag, CookieTag) -> bool = true;
    WriteWriters: write_writers(ConnectionTag, CookieTag) -> bool = true;
    RedirectWriters: redirect_writers(ConnectionTag, Url) -> EndpointSet = EndpointSet::EMPTY;
    SendWriters: send_writers(ConnectionTag, ConnectionTag) -> bool = true;
    SendUrlWriters: send_url_writers(ConnectionTag, Url) -> bool = true;

    StoreReaders: store_readers(ConnectionTag, CookieTag) -> bool = true;
    ReadReaders: read_readers(ConnectionTag, CookieTag) -> bool = true;
    WriteReaders: write_readers(ConnectionTag, CookieTag) -> bool = true;
    SendEvent: send_event(ConnectionTag, Url) -> bool = true;
    SendReaders: send_readers(ConnectionTag, ConnectionTag) -> bool = true;
    FitReaders: fit_readers(ConnectionTag, Url) -> EndpointSet = EndpointSet::EMPTY;
    RedirectEvent: redirect_event(ConnectionTag, Url) -> EndpointSet = EndpointSet::EMPTY;
    Carry: carry(CookieTag, Url) -> bool = true;
}

/// A monitor by these rules.
fn by(rules: &'static dyn Rules) -> Box<Monitor> {
    Box::new(|policy, scripts, state, record, out| {
        let answer = reference::feed_by(rules, policy, scripts, state, record, out);
        match answer.number {
            0 => Ok(answer.bytes as usize),
            number => Err(number),
        }
    })
}

/// Whether a rule tells the monitor in so many cases.
fn tells(rule: &dyn Rule, monitor: &Monitor, cases: u64) -> bool {
    let mut tally = Tally::new(rule);
    (0..cases).any(|case| tally.check(monitor, SEED, case).is_err())
}

/// One rule tells a monitor without this condition, and the other does not mind.
fn assert_told(rule: &dyn Rule, other: &dyn Rule, rules: &'static dyn Rules) {
    let monitor = by(rules);
    assert!(tells(rule, &monitor, CASES));
    assert!(!tells(other, &monitor, HONEST_CASES));
}

#[test]
fn an_honest_monitor_passes() {
    for rule in [&Secrecy as &dyn Rule, &Forgery] {
        assert!(!tells(rule, &by(&Documents), HONEST_CASES));
    }
}

macro_rules! told {
    ($($test:ident: $rules:ident by $rule:ident and not $other:ident;)*) => {
        $(#[test]
        fn $test() {
            assert_told(&$rule, &$other, &$rules);
        })*
    };
}

told! {
    a_delivered_cookie_stored_whatever_its_writers_is_told:
        StoreWriters by Forgery and not Secrecy;
    a_cookie_read_whatever_its_writers_is_told: ReadWriters by Forgery and not Secrecy;
    a_cookie_written_whatever_its_writers_is_told: WriteWriters by Forgery and not Secrecy;
    a_redirect_whatever_the_writers_of_the_target_is_told:
        RedirectWriters by Forgery and not Secrecy;
    a_request_whatever_the_writers_of_the_connection_is_told:
        SendWriters by Forgery and not Secrecy;
    a_request_whatever_the_writers_of_the_url_is_told: SendUrlWriters by Forgery and not Secrecy;

    a_delivered_cookie_stored_whatever_its_readers_is_told:
        StoreReaders by Secrecy and not Forgery;
    a_cookie_read_whatever_its_readers_is_told: ReadReaders by Secrecy and not Forgery;
    a_cookie_written_whatever_its_readers_is_told: WriteReaders by Secrecy and not Forgery;
    a_request_whatever_its_event_endpoint_is_told: SendEvent by Secrecy and not Forgery;
    a_request_whatever_the_readers_of_the_connection_is_told:
        SendReaders by Secrecy and not Forgery;
    a_url_whatever_its_readers_is_told: FitReaders by Secrecy and not Forgery;
    a_redirect_whatever_its_event_endpoint_is_told: RedirectEvent by Secrecy and not Forgery;
    a_cookie_carried_whatever_the_message_endpoint_is_told: Carry by Secrecy and not Forgery;
}

/// Entries are excused from the comparison for a reason: forgers do cause requests to them.
#[test]
fn entries_that_are_counted_among_the_guarded_are_told() {
    let monitor = by(&Documents);
    let differs = |case| {
        let mut case = Case::make(&Forgery, &monitor, SEED, case);
        case.scope.compare_entries();
        compare(&case.scope, &side_by_side(&case)).is_err()
    };
    assert!((0..CASES).any(differs));
}

/// A monitor that does this where 2 refuses the policy.
fn under_a_bad_policy(does: fn(&mut [u32], &mut [u8]) -> usize) -> Box<Monitor> {
    let honest = by(&Documents);
    Box::new(move |policy, scripts, state, record, out| {
        match honest(policy, scripts, state, record, out) {
            Err(POLICY_BAD) if record.first() == Some(&LOAD) => Ok(does(state, out)),
            answer => answer,
        }
    })
}

#[test]
fn a_request_under_a_policy_that_2_refuses_is_told() {
    let monitor = under_a_bad_policy(|_, out| {
        let request = [DOCUMENT_REQUEST, 0, 0];
        out[..request.len()].copy_from_slice(&request);
        request.len()
    });
    for rule in [&Secrecy as &dyn Rule, &Forgery] {
        assert!(tells(rule, &monitor, CASES));
    }
}

/// The whole state is compared, but only by the rule that compares states.
#[test]
fn a_state_that_changes_under_a_policy_that_2_refuses_is_told() {
    let monitor = under_a_bad_policy(|state, _| {
        state[0] += 1;
        0
    });
    assert!(tells(&Secrecy, &monitor, CASES));
    assert!(!tells(&Forgery, &monitor, HONEST_CASES));
}

/// A load that is refused where the connection is not free tells of what is there, and lets it stop the load.
#[test]
fn a_connection_that_is_asked_whether_it_is_free_is_told() {
    let honest = by(&Documents);
    let monitor: Box<Monitor> = Box::new(move |policy, scripts, state, record, out| {
        let load = read_input(record).filter(|fields| fields.map == LOAD);
        let connection = load.map(|fields| fields.connection);
        match connection.filter(|&of| usize::from(of) < CONNECTIONS) {
            Some(of) if Pending::of(state, of).kind != 0 => Err(NOT_AWAITED),
            _ => honest(policy, scripts, state, record, out),
        }
    });
    for rule in [&Secrecy as &dyn Rule, &Forgery] {
        assert!(tells(rule, &monitor, CASES));
    }
}

#[test]
fn a_case_is_the_same_again() {
    let records = |case| {
        let lists = Case::make(&Forgery, &by(&Documents), SEED, case).lists;
        lists.map(|list| {
            list.into_iter()
                .map(|fed| (fed.record, fed.room))
                .collect::<Vec<_>>()
        })
    };
    for case in 0..8 {
        assert_eq!(records(case), records(case));
        assert_ne!(records(case), records(case + 1));
    }
}
