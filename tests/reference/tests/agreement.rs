//! Random calls: the plain and the fast monitor agree in all that they answer and leave, and every event occurs.

use cases::{Call, Random, Setting};
use reference::layout::NONE_MISSING;
use reference::numbers::{READERS_FORBID, WRITERS_FORBID};
use reference::{feed_fast, feed_noting, Event, Seen};

const SEED: u64 = 5;
const SETTINGS: u64 = 2_000;
const CALLS: usize = 100;

/// Feeds the plain monitor, and holds the fast one to it. The state after is left in the call.
fn compare(call: &mut Call, seen: &mut Seen) {
    let Call {
        policy,
        scripts,
        state,
        record,
        out,
    } = call;
    let before = state.clone();
    let (mut fast_state, mut fast_out, old_out) = (state.clone(), out.clone(), out.clone());
    let fast = feed_fast(policy, scripts, &mut fast_state, record, &mut fast_out);
    let plain = feed_noting(policy, scripts, state, record, out, seen);
    assert_eq!(plain, fast, "{record:02x?}");
    assert_eq!(*state, fast_state, "{record:02x?}");
    assert_eq!(*out, fast_out, "{record:02x?}");
    let length = plain.bytes as usize;
    assert_eq!(out[length..], old_out[length..], "{record:02x?}");
    if plain.number != 0 {
        assert_eq!(*state, before);
        assert_eq!((plain.bytes, plain.steps), (0, 0));
    }
    let is_forbidden = [READERS_FORBID, WRITERS_FORBID].contains(&plain.number);
    assert_eq!(plain.missing < NONE_MISSING, is_forbidden, "{record:02x?}");
    assert!(plain.missing <= NONE_MISSING);
}

#[test]
fn plain_and_fast_agree_and_every_event_occurs() {
    let mut seen = Seen::new();
    let mut call = Call::default();
    for setting in 0..SETTINGS {
        let random = Random::of_case(SEED, setting);
        let setting = Setting::random(&random);
        call.start_run(&setting, &random);
        for index in 0..CALLS {
            if index < CALLS / 2 {
                call.make_next(&setting, &random);
            } else {
                call.make_single(&setting, &random);
            }
            compare(&mut call, &mut seen);
        }
    }
    let missing: Vec<_> = seen.missing().into_iter().map(Event::name).collect();
    assert!(missing.is_empty(), "never occurred: {missing:#?}");
}
