//! Each rule where all its conditions fail: every lack, in order, with the whole of what is missing.

mod post;

use explain::{rules, Lack, Owner, Set};
use post::{lacks, lacks_event, lacks_message, set};
use zolherima::{Connection, Labels, Policy, PolicyBuilder, Url};

const URL: Owner = Owner::Url(5);
const ON: Owner = Owner::Connection(1);
const OTHER: Owner = Owner::Connection(2);
const COOKIE: Owner = Owner::Cookie { host: 3, key: 6 };

/// URL 5 by https at host 4, two connections and the cookie of host 3 and key 6: no set is within another.
fn at_odds() -> PolicyBuilder {
    let mut policy = PolicyBuilder::new();
    let on = Connection {
        readers: set(0b0000_0111),
        script_readers: set(0b0000_0011),
        writers: set(0b0001_1000),
    };
    let other = Connection {
        readers: set(0b0110_0100),
        script_readers: set(0),
        writers: set(0b1000_0000),
    };
    let cookie = Labels {
        readers: set(0x0000_0300),
        writers: set(0x0000_0c00),
    };
    policy
        .url(5, post::url(20, 1 << 4, 1 << 4))
        .connection(1, on)
        .connection(2, other)
        .cookie(3, 6, cookie);
    policy
}

fn policy() -> Policy {
    at_odds().build().unwrap()
}

fn entry_policy() -> Policy {
    let url = Url {
        is_entry: true,
        ..policy().url(5).unwrap()
    };
    at_odds().url(5, url).build().unwrap()
}

/// The readers of the connection are not the URL's.
fn readers_of_url() -> Lack {
    lacks((Set::Readers, URL), 0b0000_0111, (Set::Readers, ON))
}

fn message(connection: Owner) -> Lack {
    lacks_message((Set::Writers, connection), 20, 5)
}

#[test]
fn a_load_asks_two_conditions() {
    let expected = [readers_of_url(), message(ON)];
    assert_eq!(rules::load(&policy(), 1, 5), expected);
    assert_eq!(rules::load(&entry_policy(), 1, 5), expected);
}

#[test]
fn a_redirect_asks_four_and_of_an_entry_three() {
    let expected = [
        lacks_event((Set::Readers, ON), 4, 5),
        readers_of_url(),
        message(ON),
        lacks((Set::Writers, URL), 0b0000_1000, (Set::Writers, ON)),
    ];
    assert_eq!(rules::redirect(&policy(), 1, 5), expected);
    assert_eq!(rules::redirect(&entry_policy(), 1, 5), expected[..3]);
}

#[test]
fn a_request_asks_six_and_of_an_entry_five() {
    let script = (Set::ScriptReaders, ON);
    let shaped_by = (Set::Writers, ON);
    let expected = [
        lacks_event(script, 4, 5),
        lacks(script, 0b0110_0100, (Set::Readers, OTHER)),
        lacks((Set::Readers, URL), 0b0110_0100, (Set::Readers, OTHER)),
        message(OTHER),
        lacks((Set::Writers, OTHER), 0b0001_1000, shaped_by),
        lacks((Set::Writers, URL), 0b0000_1000, shaped_by),
    ];
    assert_eq!(rules::request(&policy(), 1, 5, 2), expected);
    assert_eq!(rules::request(&entry_policy(), 1, 5, 2), expected[..5]);
}

#[test]
fn a_read_asks_two() {
    let expected = [
        lacks(
            (Set::Readers, COOKIE),
            0b0000_0011,
            (Set::ScriptReaders, ON),
        ),
        lacks((Set::Writers, ON), 0x0000_0c00, (Set::Writers, COOKIE)),
    ];
    assert_eq!(rules::read(&policy(), 1, 3, 6), expected);
}

#[test]
fn a_write_asks_two() {
    let expected = [
        lacks(
            (Set::ScriptReaders, ON),
            0x0000_0300,
            (Set::Readers, COOKIE),
        ),
        lacks((Set::Writers, COOKIE), 0b0001_1000, (Set::Writers, ON)),
    ];
    assert_eq!(rules::write(&policy(), 1, 3, 6), expected);
}

#[test]
fn a_store_asks_two() {
    let expected = [
        lacks((Set::Readers, ON), 0x0000_0300, (Set::Readers, COOKIE)),
        lacks((Set::Writers, COOKIE), 0b0001_1000, (Set::Writers, ON)),
    ];
    assert_eq!(rules::store(&policy(), 1, 3, 6), expected);
}

#[test]
fn a_request_that_carries_asks_one() {
    let expected = [lacks_message((Set::Readers, COOKIE), 20, 5)];
    assert_eq!(rules::carry(&policy(), 5, 3, 6), expected);
}

#[test]
fn nothing_fails_where_everyone_reads_and_writes() {
    let all = u32::MAX;
    let policy = PolicyBuilder::new()
        .url(5, post::url(20, all, all))
        .connection(1, post::connection(all, all))
        .connection(2, post::connection(all, all))
        .cookie(3, 6, post::labels(all, all))
        .build()
        .unwrap();
    assert_eq!(rules::load(&policy, 1, 5), []);
    assert_eq!(rules::redirect(&policy, 1, 5), []);
    assert_eq!(rules::request(&policy, 1, 5, 2), []);
    assert_eq!(rules::read(&policy, 1, 3, 6), []);
    assert_eq!(rules::write(&policy, 1, 3, 6), []);
    assert_eq!(rules::store(&policy, 1, 3, 6), []);
    assert_eq!(rules::carry(&policy, 5, 3, 6), []);
}

#[test]
fn of_what_is_not_there_nothing_is_said() {
    let policy = policy();
    assert_eq!(rules::load(&policy, 32, 5), []);
    assert_eq!(rules::redirect(&policy, 1, 6), []);
    assert_eq!(rules::request(&policy, 1, 64, 2), []);
    assert_eq!(rules::read(&policy, 1, 16, 0), []);
    assert_eq!(rules::write(&policy, 1, 0, 8), []);
    assert_eq!(rules::store(&policy, u32::MAX, 0, 0), []);
    assert_eq!(rules::carry(&policy, u32::MAX, 0, 0), []);
}
