//! The journey: connections found by hand under document 01's small policy P and under a policy with canteen and bank, and every way to be refused.

#[path = "common/planning.rs"]
mod planning;

use cases::policy::document;
use planning::payment::{self, ACCOUNT, BANK, CHECKOUT, FRONT, SEARCH, TYPED, TYPED_FRONT};
use planning::{bare, find, refused, set_connection, set_row, told, ALL};
use reference::layout::{POLICY_HTTPS_HOSTS, POLICY_PARTNERS, URLS};
use reference::numbers::POLICY_BAD;
use reference::{
    first_failure, journey_stops, Failure, CONNECTION_UNKNOWN, JOURNEY_BAD, JOURNEY_URLS,
    NO_CONNECTION,
};

/// Of a place from 0 on, the number, and the endpoint that the URL lacks.
fn url_lacks(place: usize, number: u32, missing: u32) -> Option<Failure> {
    Some(Failure {
        place,
        number,
        missing,
        of_url: true,
    })
}

/// The same, and the connection lacks it.
fn connection_lacks(place: usize, number: u32, missing: u32) -> Option<Failure> {
    Some(Failure {
        place,
        number,
        missing,
        of_url: false,
    })
}

/// The journey has this connection, or none, and these connections fail so; one that has no failure carries it.
fn journey(policy: &[u32], urls: &[u8], connection: u32, failures: &[(u32, Option<Failure>)]) {
    assert_eq!(find(policy, urls), told(connection), "{urls:?}");
    for &(connection, failure) in failures {
        let found = first_failure(policy, connection, urls);
        assert_eq!(found, failure, "{urls:?} on {connection}");
    }
    for connection in 0..connection {
        assert!(first_failure(policy, connection, urls).is_some());
    }
}

#[test]
fn numbers_of_the_document() {
    assert_eq!(JOURNEY_BAD, 17);
    assert_eq!(CONNECTION_UNKNOWN, 6);
    assert_eq!(NO_CONNECTION, 32);
    assert_eq!(JOURNEY_URLS, 16);
}

/// In P, connection 0 has readers {0, 16} and writer 16, connection 1 all, connection 2 the reader and writer 16, connection 3 {0, 16} as both;
/// the others have none.
#[test]
fn one_url_of_p() {
    let policy = document();
    let lacks_writer = |url: u32| connection_lacks(0, 9, url);
    // URL 0 is address 16, with readers {0, 16}; b of the document.
    journey(
        &policy,
        &[0],
        0,
        &[
            (0, None),
            (1, url_lacks(0, 8, 1)),
            (2, None),
            (3, None),
            (4, lacks_writer(16)),
        ],
    );
    // URLs 1 and 2 are addresses 1 and 17, with every reader.
    for (url, address) in [(1, 1), (2, 17)] {
        let failures = [
            (0, lacks_writer(address)),
            (1, None),
            (2, lacks_writer(address)),
            (3, lacks_writer(address)),
            (31, lacks_writer(address)),
        ];
        journey(&policy, &[url], 1, &failures);
    }
    // URL 3 is address 0, with readers {0, 16}; c of the document.
    let failures = [
        (0, lacks_writer(0)),
        (1, url_lacks(0, 8, 1)),
        (2, lacks_writer(0)),
        (3, None),
        (31, lacks_writer(0)),
    ];
    journey(&policy, &[3], 3, &failures);
}

#[test]
fn two_urls_of_p() {
    let policy = document();
    journey(&policy, &[0, 0], 0, &[(0, None)]);
    // Connections 0 and 2 take URL 0 as well. URL 3 has the event and the message endpoint 0.
    let failures = [
        (0, connection_lacks(1, 9, 0)),
        (1, url_lacks(0, 8, 1)),
        (2, connection_lacks(1, 8, 0)),
        (3, None),
        (4, connection_lacks(0, 9, 16)),
    ];
    journey(&policy, &[0, 3], 3, &failures);
    // URL 0 has the writer 16 alone.
    let failures = [
        (0, connection_lacks(0, 9, 0)),
        (1, url_lacks(0, 8, 1)),
        (2, connection_lacks(0, 9, 0)),
        (3, url_lacks(1, 9, 0)),
        (31, connection_lacks(0, 9, 0)),
    ];
    journey(&policy, &[3, 0], 32, &failures);
    // h and i of the document: a redirect from 0 to 2 on connection 0, and from 1 to 2 on connection 1.
    let failures = [
        (0, connection_lacks(1, 8, 1)),
        (1, url_lacks(0, 8, 1)),
        (2, connection_lacks(1, 8, 1)),
        (3, connection_lacks(1, 8, 1)),
    ];
    journey(&policy, &[0, 2], 32, &failures);
    // Judged as a load URL 2 could be taken by connection 1.
    let failures = [(0, connection_lacks(0, 9, 1)), (1, url_lacks(1, 9, 0))];
    journey(&policy, &[1, 2], 32, &failures);
    journey(&policy, &[2, 1], 1, &[(1, None)]);
}

/// Where a redirect comes from does not matter, and a load is asked less.
#[test]
fn the_first_url_is_judged_as_a_load() {
    let policy = document();
    journey(&policy, &[2], 1, &[(1, None)]);
    journey(&policy, &[2, 2], 32, &[(1, url_lacks(1, 9, 0))]);
    journey(&policy, &[2, 1, 1, 1], 1, &[(1, None)]);
    journey(&policy, &[2, 1, 2, 1], 32, &[(1, url_lacks(2, 9, 0))]);
    journey(&policy, &[0, 3, 3, 0], 32, &[(3, url_lacks(3, 9, 0))]);
}

#[test]
fn none_one_sixteen_and_seventeen_urls() {
    let policy = document();
    assert_eq!(find(&policy, &[]), refused(17));
    for length in 1..=16 {
        assert_eq!(find(&policy, &vec![0; length]), told(0));
        assert_eq!(find(&policy, &vec![4; length]), refused(17));
        // The last of them fails everywhere.
        let mut urls = vec![3; length];
        assert_eq!(find(&policy, &urls), told(3));
        *urls.last_mut().unwrap() = 2;
        let told = if length == 1 { told(1) } else { told(32) };
        assert_eq!(find(&policy, &urls), told);
    }
    for length in [17, 18, 32, 255, 256, 257, 272, 273, (1 << 16) + 1] {
        assert_eq!(find(&policy, &vec![0; length]), refused(17));
        assert_eq!(find(&policy, &vec![2; length]), refused(17));
    }
    let pay = [CHECKOUT, BANK].repeat(8);
    let policy = payment::policy();
    assert_eq!(find(&policy, &pay), told(3));
    assert_eq!(
        find(&policy, &[&pay[..], &[CHECKOUT]].concat()),
        refused(17)
    );
}

/// In every place, beside URLs that a connection carries and such as none does.
#[test]
fn numbers_without_a_row() {
    let policy = document();
    for length in [1, 2, 3, 16] {
        for other in [0, 1] {
            let mut urls = vec![other; length];
            for place in 0..length {
                for number in 0..=255 {
                    urls[place] = number;
                    let is_refused = find(&policy, &urls) == refused(17);
                    assert_eq!(is_refused, number > 3, "{urls:?}");
                }
                urls[place] = other;
            }
        }
    }
    assert_eq!(find(&bare(), &[0]), refused(17));
}

/// 2 is asked before 17.
#[test]
fn policies_that_are_refused() {
    let policy = document();
    let long = [&policy[..], &policy].concat();
    let journeys: [&[u8]; 5] = [&[0], &[0, 3], &[], &[64], &[0; 17]];
    for urls in journeys {
        for length in [0, 1, 192, 544, 608, 610, 1218] {
            assert_eq!(find(&long[..length], urls), refused(2));
        }
        for (place, word) in [
            (0, 64),
            (1, 0),
            (3 * 63, 254),
            (3 * 63 + 1, 1),
            (448 + 3 * 31 + 1, 1),
            (POLICY_HTTPS_HOSTS, 1 << 16),
            (POLICY_HTTPS_HOSTS, 1),
            (POLICY_PARTNERS + 3, 0),
            (POLICY_PARTNERS + 63, 0),
        ] {
            let mut other = policy.clone();
            other[place] = word;
            assert_eq!(find(&other, urls), refused(2), "{place}");
        }
    }
}

/// Connection 0 takes the checkout, connection 2 as well; connection 3 has what both need.
#[test]
fn canteen_bank_canteen() {
    let failures = [
        (0, connection_lacks(1, 8, 5)),
        (1, connection_lacks(0, 9, 18)),
        (2, connection_lacks(1, 9, 21)),
        (3, None),
        (31, url_lacks(0, 8, 9)),
    ];
    let policy = payment::policy();
    journey(&policy, &[CHECKOUT, BANK, CHECKOUT], 3, &failures);
    journey(&policy, &[ACCOUNT, CHECKOUT], 0, &[(3, url_lacks(0, 8, 5))]);
    let failures = [(0, connection_lacks(1, 8, 5)), (3, url_lacks(2, 8, 5))];
    journey(&policy, &[CHECKOUT, BANK, ACCOUNT], 32, &failures);
}

/// Http at the canteen: connection 3 lacks its message endpoint, unless it is replaced.
#[test]
fn an_http_row_of_a_listed_host() {
    let places: [&[u8]; 4] = [
        &[TYPED, BANK],
        &[CHECKOUT, TYPED, BANK],
        &[BANK, CHECKOUT, TYPED],
        &[TYPED, TYPED, BANK, TYPED],
    ];
    for urls in places {
        let place = urls.iter().position(|&url| url == TYPED).unwrap();
        let failures = [(3, connection_lacks(place, 9, 2))];
        journey(&payment::policy(), urls, 32, &failures);
        journey(&payment::listed(), urls, 3, &[(3, None)]);
    }
    // What the partner lacks is told: here a writer, and the endpoint of https.
    let mut policy = payment::listed();
    policy[3 * usize::from(CHECKOUT) + 2] = 0;
    let failures = [
        (0, connection_lacks(0, 9, 21)),
        (1, connection_lacks(1, 8, 2)),
        (3, url_lacks(1, 9, 18)),
    ];
    journey(&policy, &[BANK, TYPED], 32, &failures);
    let failures = [
        (1, connection_lacks(0, 9, 18)),
        (2, connection_lacks(1, 9, 21)),
    ];
    journey(&policy, &[TYPED, BANK], 3, &failures);
}

/// The front page does not have the bank as writer.
#[test]
fn an_entry_in_the_middle() {
    let policy = payment::policy();
    let mut other = policy.clone();
    other[3 * usize::from(FRONT)] -= 32;
    for urls in [&[CHECKOUT, FRONT, BANK][..], &[BANK, FRONT]] {
        let place = urls.iter().position(|&url| url == FRONT).unwrap();
        journey(&policy, urls, 3, &[(3, None)]);
        journey(&other, urls, 32, &[(3, url_lacks(place, 9, 21))]);
    }
    // Of the first URL no writers are asked.
    journey(&policy, &[FRONT, BANK], 3, &[]);
    journey(&other, &[FRONT, BANK], 3, &[]);
    // The row after the replacement decides.
    journey(&payment::listed(), &[CHECKOUT, TYPED_FRONT, BANK], 3, &[]);
    let mut other = payment::listed();
    other[3 * usize::from(FRONT)] -= 32;
    other[3 * usize::from(TYPED_FRONT)] += 32;
    let failures = [(3, url_lacks(1, 9, 21))];
    journey(&other, &[CHECKOUT, TYPED_FRONT, BANK], 32, &failures);
}

#[test]
fn connection_0_fails_on_the_last_url_only() {
    let urls = [CHECKOUT, FRONT, CHECKOUT, BANK];
    let policy = payment::policy();
    let failures = [(0, connection_lacks(3, 8, 5)), (3, None)];
    journey(&policy, &urls, 3, &failures);
    journey(&policy, &urls[..3], 0, &[(0, None)]);
    let sixteen = [[CHECKOUT].repeat(15), vec![BANK]].concat();
    let failures = [(0, connection_lacks(15, 8, 5)), (3, None)];
    journey(&policy, &sixteen, 3, &failures);
    journey(&policy, &sixteen[..15], 0, &[(0, None)]);
}

/// From the search page to the front page, and further only to what readers of the search may see.
#[test]
fn connection_31_alone() {
    let policy = payment::policy();
    let failures = [
        (0, connection_lacks(0, 9, 25)),
        (3, connection_lacks(0, 9, 25)),
        (30, connection_lacks(0, 9, 25)),
        (31, None),
    ];
    journey(&policy, &[SEARCH, FRONT], 31, &failures);
    journey(&policy, &[SEARCH, FRONT, FRONT], 31, &[]);
    let failures = [(31, url_lacks(2, 8, 9))];
    journey(&policy, &[SEARCH, FRONT, CHECKOUT], 32, &failures);
}

/// Each connection alone, and each with all above it.
#[test]
fn each_connection() {
    for connection in 0..32 {
        let mut policy = document();
        for other in 0..32 {
            set_connection(&mut policy, other, [0, 0]);
        }
        set_connection(&mut policy, connection, [ALL, ALL]);
        assert_eq!(find(&policy, &[2, 1, 1]), told(connection as u32));
        for other in connection..32 {
            set_connection(&mut policy, other, [ALL, ALL]);
        }
        assert_eq!(find(&policy, &[2, 1, 1]), told(connection as u32));
    }
}

/// Each URL, at each address and as an entry, first and further.
#[test]
fn each_url() {
    for url in 0..URLS {
        for address in 0..32 {
            for entry in [0, 32] {
                let mut policy = bare();
                set_row(&mut policy, url, [address + entry, ALL, ALL]);
                let own = 1 << address;
                set_connection(&mut policy, 5, [1 << (address % 16), own]);
                let urls = [url as u8; 3];
                assert_eq!(find(&policy, &urls[..1]), told(5));
                assert_eq!(find(&policy, &urls), told(5));
                set_connection(&mut policy, 5, [!(1 << (address % 16)), own]);
                assert_eq!(find(&policy, &urls[..1]), told(5));
                assert_eq!(find(&policy, &urls), told(32));
                set_connection(&mut policy, 5, [ALL, !own]);
                assert_eq!(find(&policy, &urls[..1]), told(32));
            }
        }
    }
}

/// The policy is asked about first, then the journey, then the connection.
#[test]
fn where_connections_stop() {
    let policy = document();
    let connections = [0, 31, 32, u32::MAX];
    let stops = |policy: &[u32], urls: &[u8]| journey_stops(policy, urls, &connections);
    let unknown = Err(CONNECTION_UNKNOWN);
    for urls in [&[0, 3][..], &[3, 0], &[1]] {
        let [first, last] = [0, 31].map(|connection| Ok(first_failure(&policy, connection, urls)));
        assert_eq!(stops(&policy, urls), [first, last, unknown, unknown]);
    }
    assert_eq!(stops(&policy, &[0, 64]), [Err(JOURNEY_BAD); 4]);
    assert_eq!(stops(&policy[1..], &[0, 64]), [Err(POLICY_BAD); 4]);
}
