//! The test can fail: tables that move more than is claimed are told, and what is no pair.

use cases::labels::{CONNECTIONS, CONNECTIONS_AT};
use cases::policy::document;
use cases::reach::{Change, Pair};
use reference::Reach;

use crate::pairs::{judge, PairSeen};

fn table(urls: [u32; CONNECTIONS]) -> Reach {
    Reach {
        number: 0,
        urls,
        all: urls.iter().sum(),
    }
}

/// Policy P, and policy P with some words changed.
fn pair(change: Change, words: &[(usize, u32)]) -> Pair {
    let before = document();
    let mut after = before.clone();
    for &(place, word) in words {
        after[place] = word;
    }
    Pair {
        change,
        before,
        after,
    }
}

fn judged(pair: &Pair, before: Reach, after: Reach) -> Result<(), String> {
    judge(pair, &[before, after], &mut PairSeen::new())
}

/// It is passed or told, whichever policy comes first.
fn assert_judged(pair: &Pair, tables: [Reach; 2], is_passed: bool) {
    let [before, after] = tables;
    for told in [judged(pair, before, after), judged(pair, after, before)] {
        assert_eq!(told.is_ok(), is_passed, "{told:?}");
        let is_claim = |told: &String| told.starts_with("library: claim: ");
        assert!(told.as_ref().err().into_iter().all(is_claim), "{told:?}");
    }
}

#[test]
fn with_a_url_each_count_moves_by_one_at_most() {
    let url = pair(Change::Url, &[(1, u32::MAX)]);
    assert_judged(&url, [table([0; 32]), table([1; 32])], true);
    assert_judged(&url, [table([7; 32]), table([7; 32])], true);
    let mut one = [0; 32];
    one[31] = 2;
    assert_judged(&url, [table([0; 32]), table(one)], false);
    let total_alone = Reach {
        all: 33,
        ..table([1; 32])
    };
    assert_judged(&url, [table([0; 32]), total_alone], false);
}

#[test]
fn with_a_connection_its_count_alone_moves() {
    let connection = pair(Change::Connection, &[(CONNECTIONS_AT + 3 * 5, 1)]);
    let with = |place: usize, count: u32| {
        let mut urls = [0; 32];
        urls[place] = count;
        table(urls)
    };
    assert_judged(&connection, [with(5, 0), with(5, 64)], true);
    assert_judged(&connection, [with(5, 0), with(6, 1)], false);
    assert_judged(&connection, [with(5, 0), with(5, 65)], false);
}

#[test]
fn with_the_rest_nothing_moves() {
    let rest = pair(Change::Rest, &[(192, 7), (544, 1 << 9), (2, 0), (0, 48)]);
    assert_judged(&rest, [table([3; 32]), table([3; 32])], true);
    let mut urls = [3; 32];
    (urls[0], urls[1]) = (2, 4);
    assert_judged(&rest, [table([3; 32]), table(urls)], false);
    let total_alone = Reach {
        all: 95,
        ..table([3; 32])
    };
    assert_judged(&rest, [table([3; 32]), total_alone], false);
}

#[test]
fn a_refusal_is_told() {
    let url = pair(Change::Url, &[]);
    let refused = Reach {
        number: 2,
        ..table([0; 32])
    };
    assert_judged(&url, [table([0; 32]), refused], false);
}

#[test]
fn more_than_a_claim_allows_is_no_pair() {
    let same = table([0; 32]);
    let none = [
        pair(Change::Url, &[(1, 1), (4, 1)]),
        pair(Change::Url, &[(1, 1), (CONNECTIONS_AT, 0)]),
        pair(Change::Connection, &[(CONNECTIONS_AT, 0), (2, 0)]),
        pair(
            Change::Connection,
            &[(CONNECTIONS_AT, 0), (CONNECTIONS_AT + 5, 0)],
        ),
        pair(Change::Rest, &[(1, 1)]),
        pair(Change::Rest, &[(0, 17)]),
        pair(Change::Rest, &[(CONNECTIONS_AT + 2, 0)]),
    ];
    for pair in none {
        let told = judged(&pair, same, same).expect_err("it is no pair");
        assert!(told.starts_with("no pair"), "{told}");
    }
}
