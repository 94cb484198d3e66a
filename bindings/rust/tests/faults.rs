//! What is wrong with a policy: each fault by its name, and there is one just where the library refuses the policy.

mod library;
mod policies;
mod random;

use std::error::Error;

use library::is_refused;
use policies::{listed_post, small_post};
use random::Random;
use zolherima::{faults, Endpoint, Fault, Named, Policy, NO_PARTNER, NO_URL, POLICY_WORDS};

const CONNECTIONS: usize = 448;
const PARTNERS: usize = POLICY_WORDS - 64;
const HTTPS_HOSTS: usize = PARTNERS - 1;

fn endpoint(number: u32) -> Endpoint {
    Endpoint::new(number).expect("there is such an endpoint")
}

/// Policy P, where host 0 is always https, with some words changed.
fn changed(words: &[(usize, u32)]) -> policies::Policy {
    let mut policy = listed_post();
    for &(at, word) in words {
        policy[at] = word;
    }
    policy
}

fn all(words: &[u32]) -> Vec<Fault> {
    let all: Vec<Fault> = faults(words).collect();
    assert_eq!(is_refused(words), !all.is_empty(), "{all:?}");
    let first = Policy::from_words(words).err();
    assert_eq!(first, all.first().copied());
    all
}

#[test]
fn a_policy_that_is_well_formed_has_none() {
    assert_eq!(all(&policies::empty()), []);
    assert_eq!(all(&small_post()), []);
    assert_eq!(all(&listed_post()), []);
}

#[test]
fn a_length_is_told_alone() {
    let mut words = vec![0; POLICY_WORDS + 1];
    for length in [0, 1, POLICY_WORDS - 1, POLICY_WORDS + 1] {
        assert_eq!(all(&words[..length]), [Fault::Length { words: length }]);
    }
    words.truncate(POLICY_WORDS);
    assert_eq!(all(&words).len(), 64 + 64);
}

#[test]
fn an_address_is_below_64_or_there_is_no_url() {
    for word in [64, 65, 254, 256, u32::MAX] {
        // URL 5 is not in use
        assert_eq!(
            all(&changed(&[(15, word)])),
            [Fault::Address { url: 5, word }]
        );
        let labelled = changed(&[(15, word), (16, 1), (17, 1)]);
        assert_eq!(all(&labelled), [Fault::Address { url: 5, word }]);
    }
    for (at, word) in [(16, 1), (17, 1), (16, u32::MAX), (17, 0x8000_0000)] {
        let labelled = [Fault::EmptyRowLabelled { url: 5 }];
        assert_eq!(all(&changed(&[(at, word)])), labelled);
    }
}

#[test]
fn the_event_endpoint_is_a_reader() {
    for word in [7, 16 + 7, 32 + 7, 48 + 7] {
        let missing = endpoint(7);
        let lacks = changed(&[(15, word), (16, !(1 << 7))]);
        assert_eq!(all(&lacks), [Fault::EventEndpoint { url: 5, missing }]);
        assert_eq!(all(&changed(&[(15, word), (16, 1 << 7)])), []);
    }
}

#[test]
fn script_readers_are_readers() {
    for (connection, readers, script_readers, missing) in [
        (4, 0, 1, 0),
        (31, 5, 0x8000_0006, 1),
        (0, !(1 << 31), u32::MAX, 31),
    ] {
        let at = CONNECTIONS + 3 * connection;
        let connection = connection as u32;
        let missing = endpoint(missing);
        let lacks = changed(&[(at, readers), (at + 1, script_readers)]);
        let fault = Fault::ScriptReaders {
            connection,
            missing,
        };
        assert_eq!(all(&lacks), [fault]);
        assert_eq!(
            all(&changed(&[(at, u32::MAX), (at + 1, script_readers)])),
            []
        );
    }
}

#[test]
fn hosts_are_below_16() {
    for word in [0x1_0001, 0x8000_0001] {
        assert_eq!(
            all(&changed(&[(HTTPS_HOSTS, word)])),
            [Fault::HostsAbove { word }]
        );
    }
    // no URL has host 15
    assert_eq!(all(&changed(&[(HTTPS_HOSTS, 0x8001)])), []);
}

/// URL 3 is by http at host 0, which is always https, and its partner is URL 0.
#[test]
fn a_partner_is_by_https_at_the_same_host() {
    let with = |partner| changed(&[(PARTNERS + 3, partner)]);
    assert_eq!(all(&with(NO_PARTNER)), [Fault::PartnerMissing { url: 3 }]);
    for partner in [1, 2, 3, 4, 63, 64, 254, 256, u32::MAX] {
        let unfit = [Fault::PartnerUnfit { url: 3, partner }];
        assert_eq!(all(&with(partner)), unfit);
    }
    // a partner may be an entry, and an entry needs one
    assert_eq!(all(&changed(&[(0, 48), (9, 32)])), []);
    let missing = changed(&[(9, 32), (PARTNERS + 3, NO_PARTNER)]);
    assert_eq!(all(&missing), [Fault::PartnerMissing { url: 3 }]);
}

#[test]
fn a_partner_is_called_for() {
    for url in [0, 1, 2, 5, 63] {
        for partner in [0, 5, 64, u32::MAX] {
            let uncalled = changed(&[(PARTNERS + url as usize, partner)]);
            assert_eq!(all(&uncalled), [Fault::PartnerUncalled { url, partner }]);
        }
    }
    let unlisted = changed(&[(HTTPS_HOSTS, 0)]);
    let uncalled = Fault::PartnerUncalled { url: 3, partner: 0 };
    assert_eq!(all(&unlisted), [uncalled]);
}

/// Where URL 0 is taken away, URL 3 loses its partner.
#[test]
fn all_faults_are_told_in_the_order_of_the_words() {
    let mut words = changed(&[(HTTPS_HOSTS, 0x1_0001), (PARTNERS + 63, 0)]);
    words[..3].copy_from_slice(&NO_URL);
    words[7] = 0;
    words[17] = 1;
    words[CONNECTIONS + 1] = u32::MAX;
    let expected = [
        Fault::EventEndpoint {
            url: 2,
            missing: endpoint(1),
        },
        Fault::EmptyRowLabelled { url: 5 },
        Fault::ScriptReaders {
            connection: 0,
            missing: endpoint(1),
        },
        Fault::HostsAbove { word: 0x1_0001 },
        Fault::PartnerUnfit { url: 3, partner: 0 },
        Fault::PartnerUncalled {
            url: 63,
            partner: 0,
        },
    ];
    assert_eq!(all(&words), expected);
}

fn words(fault: Fault) -> String {
    let error: &dyn Error = &fault;
    error.to_string()
}

#[test]
fn a_fault_is_an_error_with_words() {
    let length = words(Fault::Length { words: 3 });
    assert_eq!(length, "a policy does not have 3 words");
    for (what, name) in [
        (Named::Host, "there is no host 99"),
        (Named::Key, "there is no key 99"),
        (Named::Url, "there is no URL 99"),
        (Named::Connection, "there is no connection 99"),
    ] {
        assert_eq!(words(Fault::NumberAbove { what, number: 99 }), name);
    }
    let hosts = words(Fault::HostsAbove { word: 0x1_0001 });
    assert_eq!(hosts, "hosts above 15 are always https: 0x00010001");
}

#[test]
fn the_words_name_the_row() {
    let (url, partner, missing) = (3, 1, endpoint(1));
    let address = words(Fault::Address { url, word: 64 });
    assert_eq!(address, "URL 3: 64 is no address");
    let labelled = words(Fault::EmptyRowLabelled { url });
    assert_eq!(labelled, "URL 3 is not in use and has readers or writers");
    let event = words(Fault::EventEndpoint { url, missing });
    assert_eq!(
        event,
        "URL 3: readers lack its event endpoint, http at host 1"
    );
    let connection = 4;
    let script = words(Fault::ScriptReaders {
        connection,
        missing,
    });
    assert_eq!(
        script,
        "connection 4: readers lack a script reader, http at host 1"
    );
    let needed = words(Fault::PartnerMissing { url });
    assert_eq!(needed, "URL 3 needs a partner: its host is always https");
    let unfit = words(Fault::PartnerUnfit { url, partner });
    assert_eq!(
        unfit,
        "URL 3: its partner, 1, is no URL by https at its host"
    );
    let uncalled = words(Fault::PartnerUncalled { url, partner });
    assert!(uncalled.starts_with("URL 3: it has a partner, 1, and is not by http at a host"));
}

/// Rows that are well formed more often than not.
fn some_policy(random: &mut Random) -> policies::Policy {
    let mut words = policies::empty();
    for url in 0..64 {
        if random.once_in(3) {
            let it = random.url();
            let readers = it.readers.bits() | 1 << it.address.host();
            let address = it.address.number() + if it.is_entry { 32 } else { 0 };
            policies::set_url(&mut words, url, [address, readers, it.writers.bits()]);
        }
    }
    for connection in 0..32 {
        let it = random.connection();
        policies::set_connection(&mut words, connection, it.readers.bits(), it.writers.bits());
    }
    words[HTTPS_HOSTS] = random.word() & random.word() & 0xffff;
    give_partners(&mut words, random);
    words
}

/// Those that are called for, where there are some; not always the first.
fn give_partners(words: &mut policies::Policy, random: &mut Random) {
    for url in 0..64 {
        let address = words[3 * url];
        let host = address % 32;
        let is_replaced = address < 64 && host < 16 && words[HTTPS_HOSTS] >> host & 1 == 1;
        let is_partner = |row: &usize| words[3 * row] < 64 && words[3 * row] % 32 == 16 + host;
        let partners: Vec<usize> = (0..64).filter(is_partner).collect();
        match is_replaced {
            true if !partners.is_empty() => words[PARTNERS + url] = random.one_of(&partners) as u32,
            true => words[3 * url..][..3].copy_from_slice(&NO_URL),
            false => (),
        }
    }
}

/// A word that stands somewhere in a policy becomes another.
fn damage(words: &mut policies::Policy, random: &mut Random) {
    let at = match random.below(4) {
        0 => random.below(192),
        1 => CONNECTIONS as u32 + random.below(96),
        2 => HTTPS_HOSTS as u32 + random.below(65),
        _ => random.below(POLICY_WORDS as u32),
    };
    let word = &mut words[at as usize];
    *word = match random.below(4) {
        0 => *word ^ 1 << random.below(32),
        1 => random.below(70),
        2 => random.one_of(&[
            0,
            15,
            16,
            31,
            32,
            63,
            64,
            254,
            255,
            256,
            0xffff,
            0x1_0000,
            u32::MAX,
        ]),
        _ => random.word(),
    };
}

#[test]
fn there_is_a_fault_just_where_the_library_refuses() {
    let mut random = Random::new(2);
    let (mut well_formed, mut refused) = (0, 0);
    for _ in 0..4000 {
        let mut words = some_policy(&mut random);
        assert_eq!(all(&words), []);
        for _ in 0..1 + random.below(3) {
            damage(&mut words, &mut random);
            match all(&words).is_empty() {
                true => well_formed += 1,
                false => refused += 1,
            }
        }
    }
    assert!(
        1000 < well_formed && 1000 < refused,
        "{well_formed} well formed, {refused} not"
    );
}

#[test]
fn any_words_of_any_length_have_an_answer() {
    let mut random = Random::new(3);
    for _ in 0..1000 {
        let length = random.one_of(&[POLICY_WORDS, POLICY_WORDS, POLICY_WORDS - 1, 7]);
        let words: Vec<u32> = (0..length)
            .map(|_| random.word() >> random.below(32))
            .collect();
        assert_ne!(all(&words), []);
    }
}
