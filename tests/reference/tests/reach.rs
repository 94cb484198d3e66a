//! The reach table: counted by hand under document 01's small policy P and under policies made for one rule each, and every way to be refused.

#[path = "common/planning.rs"]
mod planning;

use cases::policy::document;
use cases::{reach, Random};
use planning::payment;
use planning::{bare, input, list, set, set_connection, set_row, ALL};
use reference::layout::{POLICY_CONNECTIONS, POLICY_HTTPS_HOSTS, POLICY_PARTNERS, POLICY_WORDS};
use reference::{
    reach_count, reach_count_fast, reach_fits, reach_fits_noting, reach_noting, reach_text, Event,
    Reach, ReachEvent, ReachSeen, Seen,
};

/// Counts, and holds the counts to one another.
fn count_noting(policy: &[u32], seen: &mut ReachSeen, clauses: &mut Seen) -> Reach {
    let reach = reach_noting(policy, seen, clauses);
    assert_eq!(reach_count(policy), reach);
    assert_eq!(reach_count_fast(policy), reach);
    assert_eq!(reach.all, reach.urls.iter().sum());
    reach
}

fn count(policy: &[u32]) -> Reach {
    count_noting(policy, &mut ReachSeen::new(), &mut Seen::new())
}

/// These cells are counted and no others.
fn counts(policy: &[u32], cells: &[(u32, u32)]) {
    let reach = count(policy);
    let mut urls = [0; 32];
    for connection in 0..32 {
        for url in 0..64 {
            let fits = cells.contains(&(connection, url));
            assert_eq!(
                reach_fits(policy, connection, url),
                fits,
                "{connection}, {url}"
            );
            urls[connection as usize] += u32::from(fits);
        }
    }
    assert_eq!((reach.number, reach.urls), (0, urls));
    assert_eq!(reach.all, cells.len() as u32);
}

/// Number 2 by this clause, whatever is asked.
fn refused(policy: &[u32], clause: Event) {
    let (mut seen, mut clauses, mut only) = (ReachSeen::new(), Seen::new(), Seen::new());
    let reach = count_noting(policy, &mut seen, &mut clauses);
    assert_eq!((reach.number, reach.urls, reach.all), (2, [0; 32], 0));
    only.note(clause);
    assert_eq!(clauses, only, "{}", clause.name());
    for (connection, url) in [(0, 0), (1, 1), (3, 3), (31, 63), (32, 64)] {
        assert!(!reach_fits(policy, connection, url));
    }
    assert_eq!(reach_text(&input(policy)), "2\n");
}

/// Policy P with one word changed.
fn with(place: usize, word: u32) -> Vec<u32> {
    let mut policy = document();
    policy[place] = word;
    policy
}

/// In P, connection 0 has readers {0, 16} and writer 16, connection 1 all, connection 2 the reader and writer 16, connection 3 {0, 16} as both; the
/// others have none. URLs 0 and 3 are addresses 16 and 0 with readers {0, 16}; URLs 1 and 2 are addresses 1 and 17, and all may read them.
#[test]
fn policy_p() {
    counts(
        &document(),
        &[(0, 0), (1, 1), (1, 2), (2, 0), (3, 0), (3, 3)],
    );
    let zeros: String = (4..32)
        .map(|connection| format!("{connection} 0\n"))
        .collect();
    let text = format!("0 1\n1 2\n2 1\n3 2\n{zeros}all 6\n");
    assert_eq!(reach_text(&input(&document())), text);
}

/// Canteen and bank. Connection 0, of the canteen, has readers {2, 18} and writer 18, which is the address of URLs 10, 13 and 14; connection 1, of
/// the bank, {5, 21} and 21, the address of URL 11; connections 2 and 3 readers {2, 5, 18, 21}, whom URL 14 lacks; connection 31 readers
/// {2, 9, 18, 25} and writers 18 and 25, of which URL 13 is at 18 and URL 15 at 25, and both are for all. No connection has writer 2, the address of
/// URLs 12 and 16.
#[test]
fn canteen_and_bank() {
    let cells = [
        (0, 10),
        (0, 13),
        (0, 14),
        (1, 11),
        (2, 10),
        (2, 13),
        (3, 10),
        (3, 11),
        (3, 13),
        (31, 13),
        (31, 15),
    ];
    counts(&payment::policy(), &cells);
    // URLs 12 and 16 have partners that connections fit. They themselves are at http, and are not counted.
    counts(&payment::listed(), &cells);
}

#[test]
fn rows_that_are_empty() {
    counts(&bare(), &[]);
    assert!(reach_text(&input(&bare())).ends_with("31 0\nall 0\n"));
    // An empty row has no readers; a connection without readers and with every writer fits it no more than another.
    let mut policy = bare();
    (0..32).for_each(|connection| set_connection(&mut policy, connection, [0, ALL]));
    counts(&policy, &[]);
    set_row(&mut policy, 63, [31, ALL, 0]);
    let reach = count(&policy);
    assert_eq!((reach.urls, reach.all), ([1; 32], 32));
}

/// Every URL for every reader, every connection with every writer.
fn full() -> Vec<u32> {
    let mut policy = bare();
    for row in 0..64 {
        set_row(&mut policy, row, [row as u32, ALL, 0]);
    }
    (0..32).for_each(|connection| set_connection(&mut policy, connection, [ALL, ALL]));
    policy
}

#[test]
fn all_of_it() {
    let reach = count(&full());
    assert_eq!((reach.urls, reach.all), ([64; 32], 64 * 32));
    let lines: String = (0..32)
        .map(|connection| format!("{connection} 64\n"))
        .collect();
    assert_eq!(
        reach_text(&input(&full())),
        lines + &format!("all {}\n", 64 * 32)
    );
}

/// A URL moves the total by 32 at most, and a connection by 64: both ways, and just so much.
#[test]
fn the_most_that_a_total_moves() {
    let mut less = full();
    set_row(&mut less, 5, [255, 0, 0]);
    assert_eq!(count(&less).all, 64 * 32 - 32);
    let mut less = full();
    set_connection(&mut less, 5, [ALL, 0]);
    assert_eq!(count(&less).all, 64 * 32 - 64);
    let mut more = bare();
    (0..32).for_each(|connection| set_connection(&mut more, connection, [0, ALL]));
    set_row(&mut more, 5, [0, 1, 0]);
    assert_eq!(count(&more).all, 32);
}

/// Each row and each connection at each address, as an entry or not: the readers are within the URL's, and the message endpoint is a writer.
#[test]
fn each_cell() {
    for address in 0..32 {
        let (event, message) = (1 << (address % 16), 1 << address);
        for entry in [0, 32] {
            let (row, connection) = (2 * address as usize + 1, 31 - address);
            let mut policy = bare();
            let mut fits = |readers, sets, fits: bool| {
                set_row(&mut policy, row, [address + entry, readers, 0]);
                set_connection(&mut policy, connection as usize, sets);
                let mut urls = [0; 32];
                urls[connection as usize] = u32::from(fits);
                assert_eq!(count(&policy).urls, urls, "{address}, {sets:x?}");
                assert_eq!(reach_fits(&policy, connection, row as u32), fits);
            };
            fits(event, [0, message], true);
            fits(event, [event, message], true);
            fits(event, [event, ALL], true);
            fits(ALL, [ALL, message], true);
            fits(ALL, [ALL, ALL & !message], false);
            fits(ALL, [0, 0], false);
            fits(event, [ALL, message], false);
            fits(event, [event | 1 << ((address + 1) % 16), message], false);
            fits(ALL & !(1 << (address % 16 + 16)), [ALL, ALL], false);
        }
    }
}

/// Script readers, writers of URLs and labels of cookies have no part in it.
#[test]
fn what_is_not_looked_at() {
    let mut policy = payment::policy();
    let reach = count(&policy);
    policy[192..448].fill(0xABCD_EF01);
    for connection in 0..32 {
        let at = POLICY_CONNECTIONS + 3 * connection;
        policy[at + 1] = policy[at];
    }
    for row in 10..17 {
        policy[3 * row + 2] = row as u32;
        policy[3 * row] ^= 32;
    }
    assert_eq!(count(&policy), reach);
}

/// URL 20 is http at host 4, which is listed, URL 21 its partner, by https. Connection 0 fits the one, connection 1 the other, connection 2 both;
/// connection 3 fits URL 22, http at host 4 as well, and not URL 20, which it may not read.
#[test]
fn rows_as_they_stand() {
    let mut policy = bare();
    set_row(&mut policy, 20, [4, set(&[4, 20]), 0]);
    set_row(&mut policy, 21, [20, ALL, 0]);
    set_row(&mut policy, 22, [4 + 32, ALL, 0]);
    set_connection(&mut policy, 0, [0, set(&[4])]);
    set_connection(&mut policy, 1, [0, set(&[20])]);
    set_connection(&mut policy, 2, [set(&[4]), set(&[4, 20])]);
    set_connection(&mut policy, 3, [set(&[7]), set(&[4])]);
    let cells = [
        (0, 20),
        (0, 22),
        (1, 21),
        (2, 20),
        (2, 21),
        (2, 22),
        (3, 22),
    ];
    counts(&policy, &cells);
    list(&mut policy, 4, &[20, 22], 21);
    counts(&policy, &cells);
}

#[test]
fn numbers_that_no_table_has() {
    let policy = full();
    let (ours, theirs) = ([0, 5, 31], [0, 5, 63]);
    for connection in ours {
        for url in theirs {
            assert!(reach_fits(&policy, connection, url));
            for above in [
                64,
                65,
                64 + url,
                127,
                128,
                255,
                256 + url,
                1 << 31,
                u32::MAX,
            ] {
                assert!(!reach_fits(&policy, connection, above));
                assert!(!reach_fits(&policy, above, above));
            }
            for above in [32, 33, 32 + connection, 63, 64, 256 + connection, u32::MAX] {
                assert!(!reach_fits(&policy, above, url));
            }
        }
    }
}

#[test]
fn policies_of_another_length() {
    let long = [document(), document()].concat();
    for words in [
        0,
        1,
        192,
        448,
        544,
        545,
        607,
        608,
        610,
        611,
        2 * POLICY_WORDS,
    ] {
        refused(&long[..words], Event::PolicyLength);
    }
    assert_eq!(count(&long[..POLICY_WORDS]).all, 6);
}

#[test]
fn rows_and_connections_that_are_not_well_formed() {
    for (word, clause) in [
        (64, Event::PolicyAddress),
        (254, Event::PolicyAddress),
        (256, Event::PolicyAddressAbove),
        (u32::MAX, Event::PolicyAddressAbove),
        (255, Event::PolicyEmptyRowSets),
        (17, Event::PolicyEventEndpoint),
        (32 + 1, Event::PolicyEventEndpointEntry),
    ] {
        refused(&with(0, word), clause);
    }
    refused(&with(3 * 63 + 1, 1), Event::PolicyEmptyRowSets);
    refused(&with(3 * 63 + 2, 1), Event::PolicyEmptyRowSets);
    refused(&with(1, 0x0001_0000), Event::PolicyEventEndpoint);
    let script_readers = POLICY_CONNECTIONS + 1;
    refused(&with(script_readers, 2), Event::PolicyScriptReaders);
    refused(&with(script_readers + 93, 1), Event::PolicyScriptReaders);
}

/// URL 3 is http at host 0, URL 0 its https row, URL 2 https at host 1.
#[test]
fn hosts_and_partners_that_are_not_well_formed() {
    for bit in 16..32 {
        let policy = with(POLICY_HTTPS_HOSTS, 1 << bit);
        refused(&policy, Event::PolicyHttpsHosts);
    }
    for (row, partner, clause) in [
        (3, 0, Event::PolicyPartnerNotListed),
        (0, 0, Event::PolicyPartnerOfHttps),
        (63, 0, Event::PolicyPartnerOfEmpty),
    ] {
        refused(&with(POLICY_PARTNERS + row, partner), clause);
    }
    let listed = |partner| {
        let mut policy = document();
        list(&mut policy, 0, &[3], partner);
        policy
    };
    assert_eq!(count(&listed(0)).all, 6);
    for (partner, clause) in [
        (255, Event::PolicyPartnerMissing),
        (64, Event::PolicyPartnerAbove),
        (256, Event::PolicyPartnerAbove),
        (4, Event::PolicyPartnerEmpty),
        (3, Event::PolicyPartnerHttp),
        (2, Event::PolicyPartnerHost),
    ] {
        refused(&listed(partner), clause);
    }
}

#[test]
fn inputs_of_another_length() {
    let policy = input(&document());
    let long = [&policy[..], &policy].concat();
    for length in (0..=2_445).chain([4 * 610, long.len()]) {
        let printed = reach_text(&long[..length]);
        assert_eq!(printed != "2\n", length == 2_436, "{length}");
    }
    let mut little = policy;
    little.chunks_mut(4).for_each(<[u8]>::reverse);
    assert_eq!(reach_text(&little), "2\n");
}

/// Random policies: the counts are those of the cells, and every event and every clause occurs.
#[test]
fn random_policies() {
    let (mut seen, mut clauses) = (ReachSeen::new(), Seen::new());
    for case in 0..12_000 {
        let random = Random::of_case(16, case);
        let policy = reach::any(&random);
        let reach = count_noting(&policy, &mut seen, &mut clauses);
        let [connection, url] = [random.below(40), random.below(80)].map(|it| it as u32);
        reach_fits_noting(&policy, connection, url, &mut seen);
        if case % 40 == 0 {
            let fits = |connection, url| reach_fits(&policy, connection, url);
            let row = |connection| (0..64).filter(|&url| fits(connection, url)).count() as u32;
            let rows: Vec<u32> = (0..32).map(row).collect();
            assert_eq!(rows, reach.urls);
        }
    }
    let missing: Vec<_> = seen.missing().into_iter().map(ReachEvent::name).collect();
    assert!(missing.is_empty(), "never occurred: {missing:#?}");
    let unbroken = Event::policy_clauses().find(|clause| clauses.count(*clause) == 0);
    assert_eq!(unbroken.map(Event::name), None);
}
