//! What each step does, and each way in which a script ends.

mod post;

use explain::{Did, End, Event, Owner, Set};
use post::{lacks, lacks_event, policy_p, Post};
use zolherima::{Cookies, Record, Step, STEPS};

const NONE: &Cookies = &Cookies::NONE;

const SET: Step = Step::Set {
    register: 1,
    value: 258,
};

/// The steps that ran in the canteen's script on a connection, and its end, after the cookie of key 0 is stored where it is asked for.
fn run_on(connection: u8, cookie: Option<u32>, steps: &[Step]) -> (Vec<(u32, Did)>, u32, End) {
    let mut post = Post::new(&policy_p()).script(1, steps);
    if let Some(value) = cookie {
        let cookies = Cookies::NONE.with(0, value).unwrap();
        post.events(&Record::load(0, 0));
        post.events(&Record::document_response(0, 0, &cookies, 0));
    }
    post.events(&Record::load(0, connection));
    let events = post.events(&Record::document_response(0, connection, NONE, 1));
    let Some(Event::ScriptEnded { steps, why }) = events.last().cloned() else {
        panic!("{events:?}")
    };
    let ran = events.into_iter().filter_map(|event| match event {
        Event::StepRan { place, did, .. } => Some((place, did)),
        _ => None,
    });
    (ran.collect(), steps, why)
}

fn end_on(connection: u8, steps: &[Step]) -> End {
    run_on(connection, None, steps).2
}

fn skip(register: u8, steps: u8) -> Step {
    Step::SkipIfZero { register, steps }
}

fn read(register: u8, key: u8) -> Step {
    Step::Read { register, key }
}

fn write(key: u8, register: u8) -> Step {
    Step::Write { key, register }
}

fn add(register: u8, left: u8, right: u8) -> Step {
    Step::Add {
        register,
        left,
        right,
    }
}

fn request(url: u8, connection: u8, handler: u8) -> Step {
    Step::Request {
        url,
        connection,
        handler,
    }
}

fn show(url: u8, connection: u8) -> Step {
    Step::Picture { url, connection }
}

fn did_set(register: u32, value: u32) -> Did {
    Did::Set { register, value }
}

fn did_read(register: u32, key: u32, value: u32) -> Did {
    Did::Read {
        register,
        key,
        value,
    }
}

#[test]
fn each_step_tells_what_it_did() {
    let sums = [SET, add(2, 1, 1), skip(2, 9), skip(0, 1), SET];
    let cookies = [write(0, 2), read(3, 0)];
    let wrote = Did::Wrote {
        key: 0,
        value: 516,
        before: None,
    };
    let (ran, count, why) = run_on(2, None, &[&sums[..], &cookies].concat());
    let expected = [
        (0, did_set(1, 258)),
        (1, did_set(2, 516)),
        (2, Did::Nothing),
        (3, Did::Skipped { steps: 1 }),
        (5, wrote),
        (6, did_read(3, 0, 516)),
        (7, Did::Nothing),
    ];
    assert_eq!(ran, expected);
    assert_eq!((count, why), (7, End::Step0 { place: 7 }));
}

#[test]
fn a_request_that_is_not_allowed_ends_it() {
    let (ran, _, why) = run_on(2, None, &[request(0, 2, 0)]);
    assert_eq!(ran, [(0, Did::Nothing)]);
    // http at host 0, the event endpoint of URL 0, is not among the script readers of connection 2
    let script = (Set::ScriptReaders, Owner::Connection(2));
    let lacks = vec![lacks_event(script, 0, 0)];
    assert_eq!(why, End::NotAllowed { place: 0, lacks });
}

#[test]
fn requests_are_told() {
    let (ran, count, why) = run_on(0, None, &[request(0, 0, 0), show(0, 2)]);
    assert_eq!(ran[..2], [(0, Did::Requested), (1, Did::Requested)]);
    assert_eq!((count, why), (3, End::Step0 { place: 2 }));
}

#[test]
fn a_sum_wraps() {
    let largest = u32::MAX;
    let (ran, ..) = run_on(2, Some(largest), &[read(0, 0), SET, add(0, 0, 1)]);
    assert_eq!(ran[2], (2, did_set(0, 257)));
}

#[test]
fn a_write_that_is_not_allowed_is_passed_over() {
    let (ran, _, why) = run_on(2, None, &[write(1, 0)]);
    let cookie = Owner::Cookie { host: 0, key: 1 };
    let lack = lacks(
        (Set::Writers, cookie),
        0x0001_0000,
        (Set::Writers, Owner::Connection(2)),
    );
    let did = Did::PassedOver {
        key: 1,
        value: 0,
        lacks: vec![lack],
    };
    assert_eq!(ran[0], (0, did));
    assert_eq!(why, End::Step0 { place: 1 });
}

#[test]
fn a_read_goes_on_where_the_cookie_may_be_read() {
    let (ran, ..) = run_on(2, Some(7), &[read(0, 0)]);
    assert_eq!(ran[0], (0, did_read(0, 0, 7)));
    let cookie = Owner::Cookie { host: 0, key: 0 };
    let lack = lacks(
        (Set::Readers, cookie),
        1,
        (Set::ScriptReaders, Owner::Connection(0)),
    );
    let not_allowed = End::NotAllowed {
        place: 0,
        lacks: vec![lack],
    };
    assert_eq!(run_on(0, Some(7), &[read(0, 0)]).2, not_allowed);
    // whether it is present is asked last
    assert_eq!(end_on(0, &[read(0, 0)]), not_allowed);
    let absent = End::NoCookie { place: 0, key: 0 };
    assert_eq!(end_on(2, &[read(0, 0)]), absent);
}

#[test]
fn a_script_ends_past_its_last_step() {
    let (ran, steps, why) = run_on(0, None, &[SET; STEPS]);
    assert_eq!((ran.len(), steps, why), (STEPS, 32, End::PastTheLast));
    let (ran, steps, why) = run_on(0, None, &[skip(0, u8::MAX)]);
    assert_eq!(
        ran,
        [(
            0,
            Did::Skipped {
                steps: u8::MAX.into()
            }
        )]
    );
    assert_eq!((steps, why), (1, End::PastTheLast));
}

#[test]
fn an_op_that_there_is_not_ends_it() {
    let other = Step::Other {
        bytes: [8, 0, 0, 0],
    };
    let end = End::UnknownOp { place: 1, op: 8 };
    assert_eq!(run_on(0, None, &[SET, other]).2, end);
}

#[test]
fn the_first_field_out_of_range_is_told() {
    let ends = |step, what, number| {
        let out_of_range = End::OutOfRange {
            place: 0,
            what,
            number,
        };
        assert_eq!(end_on(0, &[step]), out_of_range);
    };
    let far = Step::Set {
        register: 4,
        value: 0,
    };
    ends(far, "register", 4);
    ends(add(4, 5, 6), "register", 4);
    ends(add(0, 5, 6), "register", 5);
    ends(add(0, 0, 6), "register", 6);
    ends(read(4, 8), "register", 4);
    ends(read(0, 8), "key", 8);
    ends(write(8, 4), "key", 8);
    ends(write(0, 4), "register", 4);
    ends(skip(4, 0), "register", 4);
    ends(request(4, 32, 16), "URL", 4);
    ends(request(64, 32, 16), "URL", 64);
    ends(request(0, 32, 16), "connection", 32);
    // neither would be allowed: the range is asked before
    ends(request(1, 1, 16), "handler", 16);
    ends(show(4, 32), "URL", 4);
    ends(show(0, 32), "connection", 32);
}
