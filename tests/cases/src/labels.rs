//! Where a policy and a state have what, and which labels allow what. The generator asks this to make calls that come far.

pub use reference::layout::{
    CONNECTIONS, ENTRY, HOSTS, KEYS, OUTPUT_BYTES, POLICY_WORDS, SCRIPTS, SCRIPTS_BYTES,
    STATE_WORDS, STEPS, STEP_BYTES, URLS,
};

pub const NO_URL: [u32; 3] = [255, 0, 0];
pub const NO_PARTNER: u32 = 255;
pub const ALL: u32 = u32::MAX;

/// Where the cookies' labels, the connections, the word of https hosts and the partners start in a policy.
pub const COOKIES_AT: usize = 3 * URLS;
pub const CONNECTIONS_AT: usize = COOKIES_AT + 2 * HOSTS * KEYS;
pub const HTTPS_HOSTS_AT: usize = CONNECTIONS_AT + 3 * CONNECTIONS;
pub const PARTNERS_AT: usize = HTTPS_HOSTS_AT + 1;

/// Where the key maps and the connections start in a state.
pub const PRESENT_AT: usize = HOSTS * KEYS;
pub const OPEN_AT: usize = PRESENT_AT + HOSTS;

pub fn within(a: u32, b: u32) -> bool {
    a & !b == 0
}

/// The event endpoint of an address, as a set: http at its host.
pub fn event_set(address: u32) -> u32 {
    1 << (address % HOSTS as u32)
}

#[derive(Clone, Copy)]
pub struct Url {
    /// The address, and for an entry `ENTRY` more.
    pub word: u32,
    pub readers: u32,
    pub writers: u32,
}

impl Url {
    pub fn of(policy: &[u32], url: u8) -> Url {
        let at = 3 * usize::from(url);
        Url {
            word: policy[at],
            readers: policy[at + 1],
            writers: policy[at + 2],
        }
    }

    pub fn exists(self) -> bool {
        self.word < 2 * ENTRY
    }

    pub fn is_entry(self) -> bool {
        self.exists() && self.word >= ENTRY
    }

    pub fn address(self) -> u32 {
        self.word % ENTRY
    }

    pub fn host(self) -> usize {
        self.address() as usize % HOSTS
    }

    pub fn is_http(self) -> bool {
        self.exists() && self.address() < HOSTS as u32
    }

    pub fn is_https(self) -> bool {
        self.exists() && !self.is_http()
    }

    /// The message endpoint, as a set.
    pub fn message(self) -> u32 {
        1 << self.address()
    }

    /// The event endpoint, as a set.
    pub fn event(self) -> u32 {
        event_set(self.address())
    }

    /// Whether a redirect or a script of a connection with these writers may ask for it, where all else allows it.
    pub fn admits(self, writers: u32) -> bool {
        self.is_entry() || within(writers, self.writers)
    }
}

/// The rows of a policy of which this holds, as a mask.
pub fn rows(policy: &[u32], holds: impl Fn(Url) -> bool) -> u64 {
    (0..URLS as u8)
        .filter(|&row| holds(Url::of(policy, row)))
        .fold(0, |mask, row| mask | 1 << row)
}

/// The https partner of a row, where it has one.
pub fn partner(policy: &[u32], url: u8) -> Option<u8> {
    let partner = policy[PARTNERS_AT + usize::from(url)];
    (partner != NO_PARTNER).then_some(partner as u8)
}

/// The URL that a request to this one goes to.
pub fn upgraded(policy: &[u32], url: u8) -> u8 {
    partner(policy, url).unwrap_or(url)
}

#[derive(Clone, Copy)]
pub struct Cookie {
    pub readers: u32,
    pub writers: u32,
}

impl Cookie {
    pub fn of(policy: &[u32], host: usize, key: u8) -> Cookie {
        let at = COOKIES_AT + 2 * (KEYS * host + usize::from(key));
        Cookie {
            readers: policy[at],
            writers: policy[at + 1],
        }
    }
}

/// The conditions of a script's request but for the writers of its URL.
const SEND_CONDITIONS: usize = 5;

#[derive(Clone, Copy)]
pub struct Connection {
    pub readers: u32,
    pub script_readers: u32,
    pub writers: u32,
}

impl Connection {
    pub fn of(policy: &[u32], connection: u8) -> Connection {
        let at = CONNECTIONS_AT + 3 * usize::from(connection);
        Connection {
            readers: policy[at],
            script_readers: policy[at + 1],
            writers: policy[at + 2],
        }
    }

    pub fn fits(self, url: Url) -> bool {
        url.exists() && within(self.readers, url.readers) && within(url.message(), self.writers)
    }

    pub fn redirects_to(self, target: Url) -> bool {
        self.fits(target) && within(target.event(), self.readers) && target.admits(self.writers)
    }

    /// Whether a script of this connection may request `url` on `other`.
    pub fn sends(self, url: Url, other: Connection) -> bool {
        self.may_send(url, other) && url.admits(self.writers)
    }

    /// Whether it may if `url` admits it.
    pub fn may_send(self, url: Url, other: Connection) -> bool {
        url.exists() && self.send_conditions(url, other) == [true; SEND_CONDITIONS]
    }

    /// Whether just the condition of this number keeps it from that.
    pub fn misses(self, condition: usize, url: Url, other: Connection) -> bool {
        let mut conditions = self.send_conditions(url, other);
        conditions[condition] = !conditions[condition];
        url.exists() && conditions == [true; SEND_CONDITIONS]
    }

    fn send_conditions(self, url: Url, other: Connection) -> [bool; SEND_CONDITIONS] {
        [
            within(url.event(), self.script_readers),
            within(other.readers, self.script_readers),
            within(other.readers, url.readers),
            within(url.message(), other.writers),
            within(self.writers, other.writers),
        ]
    }

    pub fn reads(self, cookie: Cookie) -> bool {
        within(self.script_readers, cookie.readers) && within(cookie.writers, self.writers)
    }

    pub fn writes(self, cookie: Cookie) -> bool {
        within(cookie.readers, self.script_readers) && within(self.writers, cookie.writers)
    }
}

/// A connection's word of a state, taken apart.
#[derive(Clone, Copy, PartialEq, Eq)]
pub struct Pending {
    pub kind: u8,
    pub origin: u8,
    pub handler: u8,
    pub url: u8,
}

pub const DOCUMENT: u8 = 1;
pub const SCRIPT: u8 = 2;
pub const PICTURE: u8 = 3;

impl Pending {
    pub fn of(state: &[u32], connection: u8) -> Pending {
        let [kind, origin, handler, url] = state[OPEN_AT + usize::from(connection)].to_be_bytes();
        Pending {
            kind,
            origin,
            handler,
            url,
        }
    }

    pub fn word(self) -> u32 {
        u32::from_be_bytes([self.kind, self.origin, self.handler, self.url])
    }
}

/// The connections of a state that are open, as a mask.
pub fn open_connections(state: &[u32]) -> u64 {
    (0..CONNECTIONS)
        .filter(|&n| state[OPEN_AT + n] != 0)
        .fold(0, |mask, n| mask | 1 << n)
}
