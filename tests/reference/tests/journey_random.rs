//! Random journeys: the plain and the fast search agree, the monitor itself takes what is told and refuses what fails, and every event occurs.

#[path = "common/planning.rs"]
mod planning;

use cases::journey::Given;
use cases::Random;
use planning::find_noting;
use reference::layout::{OUTPUT_BYTES, SCRIPTS_BYTES, STATE_CONNECTIONS, STATE_WORDS};
use reference::{
    feed, feed_fast, first_failure, Answer, Failure, Found, JourneyEvent, JourneySeen,
};

const CASES: u64 = 40_000;
const FED: u64 = 1_500;

/// Feeds the load and then each redirect from the empty state. The first answer that refuses, with the place of its URL.
fn travel(policy: &[u32], connection: u8, urls: &[u8], scripts: &[u8]) -> Option<(usize, Answer)> {
    let mut state = vec![0; STATE_WORDS];
    for (place, &url) in urls.iter().enumerate() {
        // The URL that the connection holds, which is the former one after its replacement.
        let held = state[STATE_CONNECTIONS + usize::from(connection)] as u8;
        let record = match place {
            0 => vec![0x03, url, connection],
            _ => vec![0x23, held, connection, url],
        };
        let (mut fast_state, mut out) = (state.clone(), vec![0; OUTPUT_BYTES]);
        let fast = feed_fast(policy, scripts, &mut fast_state, &record, &mut out);
        let answer = feed(policy, scripts, &mut state, &record, &mut out);
        assert_eq!((answer, &state), (fast, &fast_state));
        if answer.number != 0 {
            return Some((place, answer));
        }
        assert_eq!(answer.steps, 0);
        assert_eq!(out[..3], [0x03, after(policy, url), connection]);
    }
    None
}

/// The URL after its replacement.
fn after(policy: &[u32], url: u8) -> u8 {
    match policy[545 + usize::from(url)] {
        255 => url,
        partner => partner as u8,
    }
}

/// The endpoint is missing in the set that is named, and the URL or the connection has it on the other side.
fn is_missing(policy: &[u32], connection: u8, urls: &[u8], failure: &Failure) -> bool {
    let row = &policy[3 * usize::from(after(policy, urls[failure.place]))..];
    let tag = &policy[448 + 3 * usize::from(connection)..];
    let holds = |set: u32| set >> failure.missing & 1 == 1;
    let [of_url, of_connection] = match failure.number {
        8 => [row[1], tag[0]],
        _ => [row[2], tag[2]],
    };
    let asked = match (failure.number, failure.of_url) {
        (_, true) => of_connection,
        (8, false) => 1 << (row[0] % 16),
        (_, false) => 1 << (row[0] % 32),
    };
    holds(asked)
        && !holds(if failure.of_url {
            of_url
        } else {
            of_connection
        })
}

#[test]
fn the_monitor_takes_what_is_told_and_refuses_what_fails() {
    let scripts = vec![0; SCRIPTS_BYTES];
    let (mut carried, mut failed) = (0, 0);
    for case in 0..FED {
        let Given { policy, urls } = Given::good(&Random::of_case(14, case));
        let found = reference::journey_find(&policy, &urls);
        let mut lowest = 32;
        for connection in (0..32).rev() {
            let failure = first_failure(&policy, connection.into(), &urls);
            let refused = travel(&policy, connection, &urls, &scripts);
            let expected = failure.map(|it| (it.place, it.number, it.missing));
            let told = refused.map(|(place, answer)| (place, answer.number, answer.missing));
            assert_eq!(told, expected, "{urls:?} on {connection}");
            match failure {
                None => {
                    lowest = u32::from(connection);
                    carried += 1;
                }
                Some(failure) => {
                    assert!(is_missing(&policy, connection, &urls, &failure));
                    failed += 1;
                }
            }
        }
        let connection = lowest;
        assert_eq!(
            found,
            Found {
                number: 0,
                connection
            }
        );
    }
    assert!(carried > 1_000 && failed > 10_000, "{carried} {failed}");
}

#[test]
fn plain_and_fast_agree_and_every_event_occurs() {
    let mut seen = JourneySeen::new();
    for case in 0..CASES {
        let Given { policy, urls } = Given::any(&Random::of_case(15, case));
        find_noting(&policy, &urls, &mut seen);
    }
    let missing: Vec<_> = seen.missing().into_iter().map(JourneyEvent::name).collect();
    assert!(missing.is_empty(), "never occurred: {missing:#?}");
    for event in [
        JourneyEvent::Found0,
        JourneyEvent::FoundBetween,
        JourneyEvent::Found31,
        JourneyEvent::FoundNone,
    ] {
        assert!(seen.count(event) > CASES / 20, "{}", event.name());
    }
}
