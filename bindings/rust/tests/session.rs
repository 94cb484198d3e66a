//! Sessions, states and scripts by name.

mod policies;
mod random;

use policies::{listed_post, small_post};
use random::Random;
use zolherima::{
    feed, Cookies, Endpoint, Pending, PendingKind, Policy, PolicyBuilder, Record, Refusal, Request,
    RequestKind, Scripts, Session, State, Step, OUT_BYTES, REGISTERS, SCRIPT_BYTES, STATE_WORDS,
    STEPS,
};

/// Policy P, with cookies of host 0 that all of its pages may keep.
fn post() -> Policy {
    let mut words = small_post();
    words[192..208].fill(0x10001);
    Policy::from_words(&words).expect("it is well formed")
}

fn cookies(list: &[(u32, u32)]) -> Cookies {
    let add = |cookies: Cookies, &(key, value): &(u32, u32)| cookies.with(key, value);
    let all = list.iter().try_fold(Cookies::NONE, add);
    all.expect("there are such keys")
}

fn sends(session: &mut Session<'_>, record: &[u8]) -> Vec<Request> {
    let sent = session.feed(record).expect("the record is accepted");
    sent.requests
        .map(|request| request.expect("it is a request"))
        .collect()
}

fn pending(kind: PendingKind, url: u8) -> Option<Pending> {
    Some(Pending { kind, url })
}

const NONE: &Cookies = &Cookies::NONE;

/// Script 2 makes a request on connection 3, and script 6 asks for a picture on connection 1.
fn asking_scripts() -> Scripts {
    let (url, connection) = (3, 3);
    let ask = Step::Request {
        url,
        connection,
        handler: 5,
    };
    let (url, connection) = (1, 1);
    let picture = Step::Picture { url, connection };
    let mut scripts = Scripts::new();
    scripts.set(2, &[ask]).expect("it fits");
    scripts.set(6, &[picture]).expect("it fits");
    scripts
}

/// The script of a response opens the connection of the response again.
#[test]
fn a_state_tells_what_is_pending() {
    let (policy, scripts) = (post(), asking_scripts());
    let mut session = Session::new(&policy, &scripts);
    sends(&mut session, &Record::load(3, 3));
    assert_eq!(
        session.state().pending(3),
        pending(PendingKind::Document, 3)
    );
    let asked = sends(&mut session, &Record::document_response(3, 3, NONE, 2));
    let (origin, handler) = (3, 5);
    assert_eq!(asked[0].kind, RequestKind::Script { handler });
    let script = PendingKind::Script { origin, handler };
    assert_eq!(session.state().pending(3), pending(script, 3));
    assert_eq!(
        sends(&mut session, &Record::script_response(3, 3, NONE, 1)),
        []
    );
    assert_eq!(session.state().pending(3), None);

    sends(&mut session, &Record::load(1, 1));
    let asked = sends(&mut session, &Record::document_response(1, 1, NONE, 6));
    assert_eq!(asked[0].kind, RequestKind::Picture);
    assert_eq!(session.state().pending(1), pending(PendingKind::Picture, 1));
    assert_eq!(
        sends(&mut session, &Record::picture_response(1, 1, NONE)),
        []
    );
    assert_eq!(session.state().pending(1), None);
}

/// One that is present may have the value 0.
#[test]
fn a_state_tells_the_cookies_that_are_present() {
    let (policy, scripts) = (post(), Scripts::new());
    let mut session = Session::new(&policy, &scripts);
    let first = sends(&mut session, &Record::load(3, 3));
    assert_eq!(first[0].cookies, Cookies::NONE);
    let brought = cookies(&[(0, 7), (5, 0)]);
    sends(&mut session, &Record::document_response(3, 3, &brought, 0));
    let state = session.state();
    assert_eq!(
        (state.cookies(0), state.cookies(1)),
        (brought, Cookies::NONE)
    );
    assert_eq!((state.cookie(0, 0), state.cookie(0, 5)), (Some(7), Some(0)));
    assert_eq!((state.cookie(0, 1), state.cookie(1, 0)), (None, None));
    let next = sends(&mut session, &Record::load(3, 3));
    assert_eq!(next[0].cookies, brought);
}

#[test]
fn beyond_the_last_host_key_and_connection_there_is_nothing() {
    let state = State::from_words([u32::MAX; STATE_WORDS]);
    assert_eq!(state.cookie(15, 7), Some(u32::MAX));
    for above in [16, 17, 255, u32::MAX] {
        assert_eq!(
            (state.cookie(above, 0), state.cookie(0, above)),
            (None, None)
        );
        assert_eq!(state.cookies(above), Cookies::NONE);
        assert_eq!(state.pending(above.max(32)), None);
    }
    assert_eq!(
        (state.cookie(0, 8), state.cookies(15).key_map()),
        (None, 0xff)
    );
    // no kind has number 255
    assert_eq!(state.pending(0), None);
    assert_eq!(State::default(), State::new());
    assert_eq!(*State::new().words(), [0; STATE_WORDS]);
}

#[test]
fn a_refusal_changes_nothing() {
    let (policy, scripts) = (post(), Scripts::new());
    let mut session = Session::new(&policy, &scripts);
    sends(&mut session, &Record::load(0, 0));
    let before = session.state().clone();
    assert_eq!(session.feed(&[]), Err(Refusal::KindUnknown));
    assert_eq!(session.feed(&Record::load(4, 0)), Err(Refusal::NameUnknown));
    let another = Record::document_response(1, 0, NONE, 0);
    assert_eq!(session.feed(&another), Err(Refusal::NotAwaited));
    assert_eq!(*session.state(), before);
}

#[test]
fn a_partner_is_asked_for() {
    let policy = Policy::from_words(&listed_post()).expect("it is well formed");
    let scripts = Scripts::new();
    let mut session = Session::new(&policy, &scripts);
    let asked = sends(&mut session, &Record::load(3, 0));
    assert_eq!(u32::from(asked[0].url), policy.asked_for(3));
}

/// Each step by its name, but for the request. Registers begin as 0.
#[rustfmt::skip]
const STEPS_BY_NAME: [Step; 10] = [
    Step::Set { register: 1, value: 0x1234 },
    Step::Add { register: 2, left: 1, right: 1 },
    Step::Write { key: 4, register: 2 },
    Step::SkipIfZero { register: 3, steps: 1 },
    Step::Write { key: 5, register: 1 },
    Step::Read { register: 3, key: 4 },
    Step::Write { key: 6, register: 3 },
    Step::Picture { url: 3, connection: 3 },
    Step::End,
    Step::Write { key: 7, register: 1 },
];

#[test]
fn steps_do_what_they_say() {
    let (policy, mut scripts) = (post(), Scripts::new());
    scripts.set(15, &STEPS_BY_NAME).expect("it fits");
    let mut session = Session::new(&policy, &scripts);
    sends(&mut session, &Record::load(3, 3));
    let sent = session.feed(&Record::document_response(3, 3, NONE, 15));
    let sent = sent.expect("it is accepted");
    assert_eq!((sent.steps, sent.bytes()[0]), (8, 0x47));
    let written = cookies(&[(4, 0x2468), (6, 0x2468)]);
    assert_eq!(session.state().cookies(0), written);
}

/// How many bytes behind the op each op uses.
const USED: [usize; 8] = [0, 3, 3, 2, 2, 3, 2, 2];

#[test]
fn a_step_has_the_bytes_that_its_op_uses() {
    let mut random = Random::new(8);
    for op in 0..=255 {
        for _ in 0..300 {
            let bytes = [op, random.byte(), random.byte(), random.byte()];
            let used = 1 + USED.get(usize::from(op)).copied().unwrap_or(3);
            let mut kept = bytes;
            kept[used..].fill(0);
            let step = Step::of(bytes);
            assert_eq!(step.bytes(), kept);
            assert_eq!(Step::of(kept), step);
            assert_eq!(matches!(step, Step::Other { .. }), op > 7);
        }
    }
}

#[test]
fn a_script_is_set_whole() {
    let mut scripts = Scripts::new();
    let write = Step::Write {
        key: 1,
        register: REGISTERS as u8 - 1,
    };
    scripts.set(15, &[write; STEPS]).expect("it fits");
    assert_eq!(
        scripts.bytes()[..SCRIPT_BYTES - 4 * STEPS],
        [0; SCRIPT_BYTES - 4 * STEPS]
    );
    assert_eq!(scripts.step(15, 31), Some([4, 1, 3, 0]));
    assert_eq!((scripts.step(15, 32), scripts.step(16, 0)), (None, None));
    assert_eq!(scripts.set(15, &[Step::End; STEPS + 1]), None);
    assert_eq!(scripts.step(15, 31), Some([4, 1, 3, 0]));
    scripts.set(15, &[write]).expect("it fits");
    assert_eq!(scripts.step(15, 0), Some([4, 1, 3, 0]));
    assert_eq!(scripts.step(15, 1), Some([0; 4]));
    assert_eq!(Scripts::from_bytes(scripts.bytes()), Some(scripts.clone()));
    assert_eq!(Scripts::from_bytes(&scripts.bytes()[1..]), None);
    assert_eq!(Scripts::default(), Scripts::new());
}

fn some_step(random: &mut Random) -> Step {
    let [a, b, c] = [5, 5, 16].map(|end| random.below(end) as u8);
    Step::of([random.below(9) as u8, a, b, c])
}

fn some_scripts(random: &mut Random) -> Scripts {
    let mut scripts = Scripts::new();
    for script in 0..16 {
        let steps = [0; 6].map(|_| some_step(random));
        scripts.set(script, &steps).expect("it fits");
    }
    scripts
}

fn some_record(random: &mut Random) -> Record {
    let (url, connection) = (random.below(5) as u8, random.below(5) as u8);
    let (cookies, last) = (random.cookies(), random.below(17) as u8);
    match random.below(7) {
        0 => Record::script_response(url, connection, &cookies, random.word()),
        1 => Record::picture_response(url, connection, &cookies),
        2 => Record::redirect(url, connection, &cookies, last % 5),
        3 | 4 => Record::document_response(url, connection, &cookies, last),
        _ => Record::load(url, connection),
    }
}

/// A session is what `feed` does on a state of zeros, and all that it sends are requests.
#[test]
fn a_session_is_fed_as_by_hand() {
    let mut random = Random::new(9);
    let policy = post();
    let mut sent_in_all = 0;
    for _ in 0..400 {
        let scripts = some_scripts(&mut random);
        let mut session = Session::new(&policy, &scripts);
        let (mut state, mut out) = (State::new(), [0; OUT_BYTES]);
        for _ in 0..50 {
            let record = some_record(&mut random);
            let words = state.words_mut();
            let by_hand = feed(policy.words(), scripts.bytes(), words, &record, &mut out);
            let sent = session.feed(&record);
            assert_eq!(sent.as_ref().err(), by_hand.as_ref().err());
            if let (Ok(sent), Ok(by_hand)) = (sent, by_hand) {
                assert_eq!(
                    (sent.bytes(), sent.steps),
                    (&out[..by_hand.bytes], by_hand.steps)
                );
                assert!(sent.requests.clone().all(|request| request.is_ok()));
                sent_in_all += sent.requests.count();
            }
            assert_eq!(*session.state(), state);
        }
    }
    assert!(1000 < sent_in_all, "{sent_in_all} requests");
}

/// Some URLs at four hosts, of which host 0 is always https, and connections.
fn some_policy(random: &mut Random) -> Policy {
    let mut builder = PolicyBuilder::new();
    for number in 0..8 {
        let mut url = random.url();
        url.address = Endpoint::new(number / 2 + number % 2 * 16).expect("it is below 32");
        url.readers = url.readers | url.address.event().into();
        builder.url(number, url);
    }
    for number in 0..32 {
        let mut connection = random.connection();
        connection.readers = connection.readers | connection.script_readers;
        builder.connection(number, connection);
    }
    builder.always_https(0).partner(0, 1);
    builder.build().expect("it is well formed")
}

/// From a state of zeros.
#[test]
fn a_load_is_accepted_just_where_the_connection_fits() {
    let mut random = Random::new(12);
    let scripts = Scripts::new();
    let (mut accepted, mut refused) = (0, 0);
    for _ in 0..100 {
        let policy = some_policy(&mut random);
        for (url, connection) in (0..8).flat_map(|url| (0..32).map(move |on| (url, on))) {
            let asked_for = policy.url(policy.asked_for(url)).expect("there is one");
            let it = policy.connection(connection).expect("there is one");
            let load = Record::load(url as u8, connection as u8);
            let is_accepted = Session::new(&policy, &scripts).feed(&load).is_ok();
            assert_eq!(it.fits(&asked_for), is_accepted);
            *(if is_accepted {
                &mut accepted
            } else {
                &mut refused
            }) += 1;
        }
    }
    assert!(
        1000 < accepted && 1000 < refused,
        "{accepted} accepted, {refused} refused"
    );
}
