//! The builder: rows stand where `monitor.h` says, and what is not well formed is not built.

mod library;
mod policies;
mod random;

use library::is_refused;
use policies::{listed_post, small_post};
use random::Random;
use zolherima::{
    faults, Connection, Endpoint, Endpoints, Fault, Labels, Named, Policy, PolicyBuilder, Url,
    CONNECTIONS, HOSTS, KEYS, POLICY_WORDS, URLS,
};

fn set(bits: u32) -> Endpoints {
    Endpoints::from_bits(bits)
}

fn url(address: u32, readers: u32, writers: u32) -> Url {
    Url {
        address: Endpoint::new(address).expect("there is such an endpoint"),
        is_entry: false,
        readers: set(readers),
        writers: set(writers),
    }
}

/// Script readers are the readers.
fn connection(readers: u32, writers: u32) -> Connection {
    Connection {
        readers: set(readers),
        script_readers: set(readers),
        writers: set(writers),
    }
}

fn post() -> PolicyBuilder {
    let mut builder = PolicyBuilder::new();
    builder
        .url(0, url(16, 0x10001, 0x10000))
        .url(1, url(1, u32::MAX, u32::MAX))
        .url(2, url(17, u32::MAX, 0x30000))
        .url(3, url(0, 0x10001, 0x10001))
        .connection(0, connection(0x10001, 0x10000))
        .connection(1, connection(u32::MAX, u32::MAX))
        .connection(2, connection(0x10000, 0x10000))
        .connection(3, connection(0x10001, 0x10001));
    builder
}

#[test]
fn rows_become_words() {
    assert_eq!(*PolicyBuilder::new().words(), policies::empty());
    assert_eq!(PolicyBuilder::default(), PolicyBuilder::new());
    assert_eq!(*post().words(), small_post());
    assert_eq!(*post().always_https(0).partner(3, 0).words(), listed_post());
}

#[test]
fn each_cookie_and_each_entry_has_its_words() {
    let mut builder = PolicyBuilder::new();
    let labels = Labels {
        readers: set(5),
        writers: set(6),
    };
    let front_page = Url {
        is_entry: true,
        ..url(31, u32::MAX, 0)
    };
    builder.cookie(15, 7, labels).url(63, front_page);
    assert_eq!(builder.words()[446..448], [5, 6]);
    assert_eq!(builder.words()[189..192], [63, u32::MAX, 0]);
    let policy = builder.build().expect("it is well formed");
    assert_eq!(policy.cookie(15, 7), Some(labels));
    assert_eq!(policy.cookie(15, 6), Some(Labels::default()));
    assert_eq!(policy.url(63), Some(front_page));
}

#[test]
fn a_policy_tells_its_rows() {
    let policy = post().always_https(0).partner(3, 0).build();
    let policy = policy.expect("it is well formed");
    assert_eq!(policy.url(3), Some(url(0, 0x10001, 0x10001)));
    assert_eq!(policy.connection(2), Some(connection(0x10000, 0x10000)));
    assert!(policy.is_always_https(0) && !policy.is_always_https(1));
    assert_eq!((policy.partner(3), policy.asked_for(3)), (Some(0), 0));
    assert_eq!((policy.partner(0), policy.asked_for(0)), (None, 0));
    assert_eq!(policy.url(4), None);
}

#[test]
fn beyond_the_last_row_there_is_nothing() {
    let policy = post().build().expect("it is well formed");
    for above in [64, 65, 255, 256, u32::MAX] {
        assert_eq!((policy.url(above), policy.connection(above)), (None, None));
        assert_eq!(
            (policy.cookie(above, 0), policy.cookie(0, above)),
            (None, None)
        );
        assert_eq!(
            (policy.partner(above), policy.asked_for(above)),
            (None, above)
        );
        assert!(!policy.is_always_https(above));
    }
    assert_eq!((policy.connection(32), policy.cookie(16, 0)), (None, None));
    assert_eq!(
        (policy.cookie(0, 8), policy.is_always_https(16)),
        (None, false)
    );
}

/// And nothing is written for it.
#[test]
fn a_number_out_of_range_is_told() {
    let told = |builder: &PolicyBuilder, what, number| {
        assert_eq!(builder.build(), Err(Fault::NumberAbove { what, number }));
        assert_eq!(*builder.words(), small_post());
    };
    let (labels, connection) = (Labels::default(), Connection::default());
    let row = url(0, 1, 1);
    for above in [64, 255, u32::MAX] {
        told(post().url(above, row), Named::Url, above);
        told(post().cookie(above, 0, labels), Named::Host, above);
        told(post().cookie(0, above, labels), Named::Key, above);
        told(
            post().connection(above, connection),
            Named::Connection,
            above,
        );
        told(post().always_https(above), Named::Host, above);
        told(post().partner(above, 0), Named::Url, above);
        told(post().partner(3, above), Named::Url, above);
    }
    told(post().cookie(16, 8, labels), Named::Host, 16);
    told(post().cookie(15, 8, labels), Named::Key, 8);
    told(post().connection(32, connection), Named::Connection, 32);
    told(post().always_https(16).partner(64, 0), Named::Host, 16);
}

#[test]
fn a_policy_of_words_is_as_it_was_built() {
    let policy = post().build().expect("it is well formed");
    assert_eq!(Policy::from_words(policy.words()), Ok(policy.clone()));
    for length in [0, 1, POLICY_WORDS - 1] {
        let words = &policy.words()[..length];
        assert_eq!(
            Policy::from_words(words),
            Err(Fault::Length { words: length })
        );
    }
}

/// What was last given to each row.
struct Given {
    builder: PolicyBuilder,
    urls: [Option<Url>; URLS],
    cookies: [[Labels; KEYS]; HOSTS],
    connections: [Connection; CONNECTIONS],
    is_always_https: [bool; HOSTS],
    partners: [Option<u32>; URLS],
}

impl Given {
    fn nothing() -> Given {
        Given {
            builder: PolicyBuilder::new(),
            urls: [None; URLS],
            cookies: [[Labels::default(); KEYS]; HOSTS],
            connections: [Connection::default(); CONNECTIONS],
            is_always_https: [false; HOSTS],
            partners: [None; URLS],
        }
    }

    fn give_one(&mut self, random: &mut Random) {
        let (url, host, key) = (random.below(64), random.below(16), random.below(8));
        match random.below(10) {
            0 => {
                let connection = random.below(32);
                let mut it = random.connection();
                if !random.once_in(40) {
                    it.readers = it.readers | it.script_readers;
                }
                self.builder.connection(connection, it);
                self.connections[connection as usize] = it;
            }
            1 => {
                let it = random.labels();
                self.builder.cookie(host, key, it);
                self.cookies[host as usize][key as usize] = it;
            }
            2 if random.once_in(2) => {
                self.builder.always_https(host);
                self.is_always_https[host as usize] = true;
            }
            3 if random.once_in(8) => self.give_partner(url, random.below(64)),
            _ => self.give_url(url, random),
        }
    }

    fn give_url(&mut self, url: u32, random: &mut Random) {
        let mut it = random.url();
        if !random.once_in(40) {
            it.readers = it.readers | it.address.event().into();
        }
        self.builder.url(url, it);
        self.urls[url as usize] = Some(it);
    }

    fn give_partner(&mut self, url: u32, partner: u32) {
        self.builder.partner(url, partner);
        self.partners[url as usize] = Some(partner);
    }

    /// Gives each URL that needs a partner the first that fits, where there is one.
    fn give_partners(&mut self) {
        for url in 0..URLS as u32 {
            let Some(it) = self.urls[url as usize] else {
                continue;
            };
            let https = Endpoint::https(it.address.host());
            let needs = it.address == it.address.event()
                && self.is_always_https[it.address.host() as usize];
            let fits = |row: &Option<Url>| row.map(|row| row.address) == https;
            if let (true, Some(partner)) = (needs, self.urls.iter().position(fits)) {
                self.give_partner(url, partner as u32);
            }
        }
    }

    fn compare(&self, policy: &Policy) {
        self.compare_urls(policy);
        self.compare_hosts(policy);
        for (connection, it) in self.connections.iter().enumerate() {
            assert_eq!(policy.connection(connection as u32), Some(*it));
        }
    }

    fn compare_urls(&self, policy: &Policy) {
        for url in 0..URLS {
            assert_eq!(policy.url(url as u32), self.urls[url]);
            assert_eq!(policy.partner(url as u32), self.partners[url]);
        }
    }

    fn compare_hosts(&self, policy: &Policy) {
        for host in 0..HOSTS {
            let number = host as u32;
            let labels = |key| policy.cookie(number, key).expect("there is such a cookie");
            assert_eq!([0, 1, 2, 3, 4, 5, 6, 7].map(labels), self.cookies[host]);
            let is_always_https = policy.is_always_https(number);
            assert_eq!(is_always_https, self.is_always_https[host]);
        }
    }
}

/// What is built is what was given, and the library takes it; else there is a fault, and the library refuses the words.
#[test]
fn nothing_is_built_in_silence() {
    let mut random = Random::new(1);
    let (mut built, mut refused) = (0, 0);
    for _ in 0..3000 {
        let mut given = Given::nothing();
        for _ in 0..random.below(30) {
            given.give_one(&mut random);
        }
        given.give_partners();
        match given.builder.build() {
            Ok(policy) => {
                built += 1;
                given.compare(&policy);
            }
            Err(fault) => {
                refused += 1;
                assert_eq!(faults(given.builder.words()).next(), Some(fault));
            }
        }
        let is_well_formed = !is_refused(given.builder.words());
        assert_eq!(given.builder.build().is_ok(), is_well_formed);
    }
    assert!(500 < built && 500 < refused, "{built} built, {refused} not");
}
