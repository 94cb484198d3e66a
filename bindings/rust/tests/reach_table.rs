//! The reach table through the binding: counts and cells, rows as they stand, what a change can do, each refusal, and that a monitor loads what is
//! counted.

mod policies;

use std::error::Error;

use policies::{empty, listed_post, set_connection, set_url, small_post, Policy, ALL};
use zolherima::reach_table::{count, fits, PolicyBad, Table, CONNECTIONS, URLS};
use zolherima::{
    feed, ENTRY, NO_PARTNER, NO_URL, OUT_BYTES, POLICY_WORDS, SCRIPT_BYTES, STATE_WORDS,
};

/// Where the partners of the URLs stand in a policy.
const PARTNERS: usize = POLICY_WORDS - URLS;

/// Everyone reads and writes every URL and connection.
fn open() -> Policy {
    let mut policy = empty();
    for url in 0..URLS {
        set_url(&mut policy, url, [(url % CONNECTIONS) as u32, ALL, ALL]);
    }
    for connection in 0..CONNECTIONS {
        set_connection(&mut policy, connection, ALL, ALL);
    }
    policy
}

/// A table of the first connections' counts; the others reach nothing.
fn table(first: &[u32]) -> Table {
    let mut urls = [0; CONNECTIONS];
    urls[..first.len()].copy_from_slice(first);
    Table {
        urls,
        all: first.iter().sum(),
    }
}

/// The table by its cells, numbers beyond it too.
fn by_cells(policy: &[u32]) -> Table {
    let row = |connection| {
        (0..100)
            .filter(|&url| fits(policy, connection, url))
            .count() as u32
    };
    table(&(0..CONNECTIONS as u32).map(row).collect::<Vec<_>>())
}

#[test]
fn a_table_has_what_is_known_beforehand() {
    assert_eq!(count(&small_post()), Ok(table(&[1, 2, 1, 2])));
    assert_eq!(count(&empty()), Ok(table(&[])));
    assert_eq!(count(&open()), Ok(table(&[URLS as u32; CONNECTIONS])));
    let reached =
        |connection| Vec::from_iter((0..64).filter(|&url| fits(&small_post(), connection, url)));
    assert_eq!(
        [0, 1, 2, 3].map(reached),
        [vec![0], vec![1, 2], vec![0], vec![0, 3]]
    );
}

#[test]
fn rows_are_counted_as_they_stand() {
    // URL 3 is counted by its own labels, though URL 0 is asked for in its place.
    assert_eq!(count(&listed_post()), count(&small_post()));
    assert!(fits(&listed_post(), 3, 3) && !fits(&listed_post(), 0, 3));
    let mut entries = small_post();
    for url in 0..4 {
        entries[3 * url] += ENTRY;
    }
    assert_eq!(count(&entries), count(&small_post()));
}

#[test]
fn counts_are_those_of_the_cells() {
    for policy in [small_post(), listed_post(), empty(), open()] {
        assert_eq!(count(&policy), Ok(by_cells(&policy)));
    }
}

#[test]
fn a_cell_beyond_the_table_is_not_counted() {
    let policy = open();
    assert!(fits(&policy, 31, 63));
    for beyond in [64, 96, 255, 256, 1 << 16, ALL] {
        assert!(!fits(&policy, 0, beyond), "{beyond}");
        assert!(!fits(&policy, beyond, 0), "{beyond}");
        assert!(!fits(&policy, beyond, beyond), "{beyond}");
    }
    assert!(!fits(&policy, 32, 0) && !fits(&policy, 63, 63));
}

#[test]
fn one_row_moves_the_total_by_32_and_one_connection_by_64() {
    let all = |policy: &Policy| count(policy).expect("it is well formed").all;
    for url in 0..URLS {
        let mut policy = open();
        set_url(&mut policy, url, NO_URL);
        assert_eq!(all(&open()) - all(&policy), CONNECTIONS as u32);
    }
    for connection in 0..CONNECTIONS {
        let mut policy = open();
        set_connection(&mut policy, connection, 0, 0);
        assert_eq!(all(&open()) - all(&policy), URLS as u32);
    }
}

#[test]
fn a_policy_is_refused_by_its_length_or_its_form() {
    let policy = open();
    let longer = [&policy[..], &[0]].concat();
    let mut bad = policy;
    bad[1] = 0; // without its event endpoint
    let zeros = [0; POLICY_WORDS];
    for refused in [
        &policy[..0],
        &policy[..POLICY_WORDS - 1],
        &longer,
        &bad,
        &zeros,
    ] {
        assert_eq!(count(refused), Err(PolicyBad));
        assert_eq!(by_cells(refused), table(&[]));
    }
}

#[test]
fn a_refusal_has_its_number_and_its_words() {
    assert_eq!(PolicyBad.number(), 2);
    let error: Box<dyn Error> = Box::new(PolicyBad);
    let words = "the policy has the wrong length or is not well formed";
    assert_eq!(error.to_string(), words);
}

/// Whether a monitor with an empty state accepts a load.
fn loads(policy: &Policy, connection: u32, url: u32) -> bool {
    let (mut state, mut out) = ([0; STATE_WORDS], [0; OUT_BYTES]);
    let load = [0x03, url as u8, connection as u8];
    feed(policy, &[0; SCRIPT_BYTES], &mut state, &load, &mut out).is_ok()
}

#[test]
fn a_monitor_loads_what_is_counted() {
    for policy in [small_post(), listed_post(), empty(), open()] {
        for connection in 0..CONNECTIONS as u32 {
            for url in (0..URLS as u32).filter(|&url| policy[PARTNERS + url as usize] == NO_PARTNER)
            {
                let (counted, loaded) = (
                    fits(&policy, connection, url),
                    loads(&policy, connection, url),
                );
                assert_eq!(counted, loaded, "URL {url} on connection {connection}");
            }
        }
    }
    // Where there is a partner, it is loaded.
    assert!(loads(&listed_post(), 0, 3) && !fits(&listed_post(), 0, 3));
}
