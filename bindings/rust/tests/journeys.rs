//! Journeys through the binding: which connection is told, partners and entries, each refusal, that a monitor takes what is told, and that it refuses
//! a connection that stops where and as is told.

mod policies;

use std::error::Error;

use policies::{empty, listed_post, set_connection, set_url, small_post, Policy, ALL};
use zolherima::journeys::{find, stop, Lacking, Refusal, Stop, MOST_URLS};
use zolherima::{feed, Endpoint, ENTRY, OUT_BYTES, POLICY_WORDS, SCRIPT_BYTES, STATE_WORDS};

#[test]
fn the_lowest_connection_that_carries_it_is_told() {
    let policy = small_post();
    let journeys: [(&[u8], Option<u32>); 11] = [
        (&[0], Some(0)),
        (&[1], Some(1)),
        (&[2], Some(1)),
        (&[3], Some(3)),
        (&[0, 0, 0], Some(0)),
        (&[2, 1], Some(1)),
        (&[0, 3], Some(3)),    // connection 0 fails on the last URL
        (&[0, 0, 0, 3], None), // connection 3 on the second
        (&[3, 0], None),
        (&[1, 2], None),
        (&[0, 1], None),
    ];
    for (journey, connection) in journeys {
        assert_eq!(find(&policy, journey), Ok(connection), "{journey:?}");
    }
}

#[test]
fn each_connection_can_be_the_one() {
    for connection in 0..32 {
        let mut policy = empty();
        set_url(&mut policy, 63, [31, ALL, ALL]);
        assert_eq!(find(&policy, &[63, 63]), Ok(None));
        set_connection(&mut policy, connection, ALL, ALL);
        assert_eq!(find(&policy, &[63, 63]), Ok(Some(connection as u32)));
    }
}

#[test]
fn the_partner_is_asked_for() {
    let (plain, listed) = (small_post(), listed_post());
    let both = |journey: &[u8]| [&plain, &listed].map(|policy| find(policy, journey));
    assert_eq!(both(&[3]), [Ok(Some(3)), Ok(Some(0))]);
    assert_eq!(both(&[3, 0, 3]), [Ok(None), Ok(Some(0))]);
    assert_eq!(both(&[0, 3]), [Ok(Some(3)), Ok(Some(0))]);
}

#[test]
fn an_entry_may_come_from_other_writers() {
    let mut policy = small_post();
    assert_eq!(find(&policy, &[1, 2, 1]), Ok(None));
    policy[3 * 2] += ENTRY;
    assert_eq!(find(&policy, &[1, 2, 1]), Ok(Some(1)));
}

#[test]
fn the_partner_decides_whether_it_is_an_entry() {
    let told = |named: u32, partner: u32| {
        let mut policy = listed_post();
        set_connection(&mut policy, 0, 0, 0);
        policy[3 * 3] += named;
        policy[0] += partner;
        find(&policy, &[3, 3])
    };
    assert_eq!(told(0, 0), Ok(None));
    assert_eq!(told(ENTRY, 0), Ok(None));
    assert_eq!(told(0, ENTRY), Ok(Some(3)));
    assert_eq!(told(ENTRY, ENTRY), Ok(Some(3)));
}

#[test]
fn a_journey_has_one_to_16_urls() {
    let policy = small_post();
    assert_eq!(find(&policy, &[]), Err(Refusal::Journey));
    for length in 1..=MOST_URLS {
        assert_eq!(find(&policy, &vec![0; length]), Ok(Some(0)));
    }
    for length in [MOST_URLS + 1, MOST_URLS + 2, 256, 257, 1000] {
        assert_eq!(find(&policy, &vec![0; length]), Err(Refusal::Journey));
    }
}

#[test]
fn a_journey_has_urls_that_there_are() {
    let policy = small_post();
    for url in 0..=u8::MAX {
        let is_there = url < 4;
        assert_eq!(find(&policy, &[url]).is_ok(), is_there, "{url}");
        for at in 0..MOST_URLS {
            let mut journey = [0; MOST_URLS];
            journey[at] = url;
            let refusal = find(&policy, &journey).err();
            assert_eq!(refusal, (!is_there).then_some(Refusal::Journey), "{url}");
        }
    }
}

#[test]
fn the_policy_is_asked_about_first() {
    let policy = small_post();
    let longer = [&policy[..], &[0]].concat();
    for bad in [&policy[..0], &policy[..POLICY_WORDS - 1], &longer] {
        assert_eq!(find(bad, &[0]), Err(Refusal::Policy));
        assert_eq!(find(bad, &[]), Err(Refusal::Policy));
    }
    let mut bad = policy;
    bad[1] = 0x10000; // without its event endpoint
    assert_eq!(find(&bad, &[0]), Err(Refusal::Policy));
    assert_eq!(find(&bad, &[64]), Err(Refusal::Policy));
    assert_eq!(find(&[0; POLICY_WORDS], &[0]), Err(Refusal::Policy));
}

#[test]
fn a_refusal_has_its_number_and_its_words() {
    assert_eq!(Refusal::LIST.map(Refusal::number), [2, 17, 6]);
    for refusal in Refusal::LIST {
        let error: Box<dyn Error> = Box::new(refusal);
        assert!(error.to_string().len() > 10, "{error}");
    }
    let words = "the policy has the wrong length or is not well formed";
    assert_eq!(Refusal::Policy.to_string(), words);
}

/// The first place at which a monitor with an empty state does not take the journey on a connection, a load and then redirects that name the URL that
/// is held, and what it answers there.
fn refused(policy: &Policy, journey: &[u8], connection: u8) -> Option<(u32, zolherima::Refusal)> {
    let scripts = [0; SCRIPT_BYTES];
    let (mut state, mut out) = ([0; STATE_WORDS], [0; OUT_BYTES]);
    journey.iter().zip(0..).find_map(|(&url, place)| {
        let held = state[144 + usize::from(connection)] as u8;
        let redirect = [0x23, held, connection, url];
        let load = [0x03, url, connection];
        let record: &[u8] = if place == 0 { &load } else { &redirect };
        let fed = feed(policy, &scripts, &mut state, record, &mut out);
        Some((place, fed.err()?))
    })
}

/// The journeys of one to four of the small post's URLs.
fn short_journeys() -> impl Iterator<Item = Vec<u8>> {
    (0..256u32).flat_map(|journey| {
        let journey = [0, 2, 4, 6].map(|at| (journey >> at & 3) as u8);
        (1..=journey.len()).map(move |length| journey[..length].to_vec())
    })
}

#[test]
fn a_monitor_takes_what_is_told_and_nothing_below() {
    for policy in [small_post(), listed_post()] {
        for journey in short_journeys() {
            let takes = |&connection: &u8| refused(&policy, &journey, connection).is_none();
            let lowest = (0..32).find(takes);
            let told = find(&policy, &journey);
            assert_eq!(told, Ok(lowest.map(u32::from)), "{journey:?}");
        }
    }
}

#[test]
fn a_monitor_refuses_where_and_as_is_told() {
    for policy in [small_post(), listed_post()] {
        for journey in short_journeys() {
            for connection in [0, 1, 2, 3, 4, 31] {
                let told = stop(&policy, &journey, connection.into()).unwrap();
                let told = told.map(|stop| (stop.place, stop.refusal));
                let expected = refused(&policy, &journey, connection);
                assert_eq!(told, expected, "{journey:?} on {connection}");
            }
        }
    }
}

/// By the set of the URL or of the connection, for want of an endpoint.
fn by_readers(place: u32, missing: u32, lacking: Lacking) -> Result<Option<Stop>, Refusal> {
    let missing = Endpoint::new(missing).unwrap();
    Ok(Some(Stop {
        place,
        refusal: zolherima::Refusal::ReadersForbid { missing },
        lacking,
    }))
}

fn by_writers(place: u32, missing: u32, lacking: Lacking) -> Result<Option<Stop>, Refusal> {
    let missing = Endpoint::new(missing).unwrap();
    Ok(Some(Stop {
        place,
        refusal: zolherima::Refusal::WritersForbid { missing },
        lacking,
    }))
}

#[test]
fn each_condition_has_its_set() {
    // URLs by https at host 1, on a connection with endpoints 1 and 17 on which nothing stops, until one of them lacks something.
    let stopping = |lack: fn(&mut Policy)| {
        let mut policy = empty();
        for url in 0..2 {
            set_url(&mut policy, url, [17, ALL, ALL]);
        }
        set_connection(&mut policy, 9, 0x0002_0002, 0x0003_0000);
        lack(&mut policy);
        stop(&policy, &[0, 1], 9)
    };
    let (url, connection) = (Lacking::Url(1), Lacking::Connection(9));
    assert_eq!(stopping(|_| ()), Ok(None));
    let readers = stopping(|policy| policy[3 + 1] -= 0x0002_0000);
    assert_eq!(readers, by_readers(1, 17, url));
    let writers = stopping(|policy| policy[3 + 2] -= 0x0001_0000);
    assert_eq!(writers, by_writers(1, 16, url));
    let event = stopping(|policy| set_connection(policy, 9, 0x0002_0000, 0x0003_0000));
    assert_eq!(event, by_readers(1, 1, connection));
    let message = stopping(|policy| set_connection(policy, 9, 0x0002_0002, 0x0001_0000));
    assert_eq!(message, by_writers(0, 17, connection));
}

#[test]
fn the_partner_is_asked_for_and_told() {
    let mut policy = listed_post();
    policy[1] = 1; // URL 0, the partner of 3, may be known by http at host 0 alone
    set_connection(&mut policy, 9, 0x0001_0001, 0x0001_0000);
    let expected = by_readers(0, 16, Lacking::Url(0));
    assert_eq!(stop(&policy, &[3], 9), expected);
}

#[test]
fn a_connection_is_one_of_32_and_asked_about_last() {
    let policy = small_post();
    for connection in 0..32 {
        assert!(stop(&policy, &[0], connection).is_ok());
    }
    for connection in [32, 33, 63, 64, 255, 256, 1 << 16, u32::MAX] {
        let refused = Err(Refusal::Connection);
        assert_eq!(stop(&policy, &[0], connection), refused);
        assert_eq!(stop(&policy, &[64], connection), Err(Refusal::Journey));
        assert_eq!(stop(&policy, &[], connection), Err(Refusal::Journey));
        assert_eq!(stop(&policy[1..], &[], connection), Err(Refusal::Policy));
    }
    assert_eq!(stop(&policy, &[64], 0), Err(Refusal::Journey));
    assert_eq!(stop(&policy[1..], &[0], 0), Err(Refusal::Policy));
}
