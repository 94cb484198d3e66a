//! A rule for one policy and one set of endpoints: what of a record remains, and what of a request and of a state is compared.

use cases::labels::{
    rows, upgraded, Connection, Cookie, Url, CONNECTIONS, HOSTS, KEYS, OPEN_AT, PRESENT_AT,
    SCRIPTS, URLS,
};
use cases::record::{Fields, COOKIES, LOAD, REDIRECT};
use cases::setting::mask_of;

use crate::policy::is_well_formed;
use crate::record::read_input;
use crate::rule::Rule;

/// Why nothing remains of a record.
#[derive(Clone, Copy, Debug, PartialEq, Eq)]
pub enum Struck {
    /// 2 refuses the policy.
    WithAll,
    Malformed,
    /// It names what there is not: 6 fits it.
    UnknownName,
    /// By the labels of its URL or its connection; what it is.
    Label(Fields),
}

pub struct Scope {
    pub set: u32,
    policy: Vec<u32>,
    pub is_refused: bool,
    /// Whether the whole state is compared, which under such a policy a rule that compares states does.
    is_whole: bool,
    /// What is struck: the URLs whose loads are, the connections whose responses and redirects are, the keys of each host.
    loads: u64,
    connections: u64,
    cookies: [u8; HOSTS],
    /// What is compared: the URLs whose requests are, the keys of those, the keys of each host in the jar, the connections' words.
    requests: u64,
    carried: [u8; URLS],
    stored: [u8; HOSTS],
    pending: u64,
    /// The URLs whose requests are not compared only since they are entries.
    excused: u64,
}

impl Scope {
    pub fn of(rule: &dyn Rule, set: u32, policy: &[u32]) -> Scope {
        let mut scope = Scope {
            set,
            policy: policy.to_vec(),
            is_refused: !is_well_formed(policy),
            is_whole: false,
            loads: 0,
            connections: 0,
            cookies: [0; HOSTS],
            requests: 0,
            carried: [0; URLS],
            stored: [0; HOSTS],
            pending: 0,
            excused: 0,
        };
        // Such a policy is not asked: its sets may be missing.
        if scope.is_refused {
            scope.is_whole = rule.compares_states();
        } else {
            scope.ask_urls(rule);
            scope.ask_connections(rule);
            scope.ask_cookies(rule);
        }
        scope
    }

    fn ask_urls(&mut self, rule: &dyn Rule) {
        let (policy, set) = (&self.policy, self.set);
        let of = |holds: &dyn Fn(Url) -> bool| rows(policy, |url| url.exists() && holds(url));
        self.loads = of(&|url| rule.strikes_load(set, url));
        self.requests = of(&|url| rule.compares_request(set, url));
        self.excused = of(&|url| rule.excuses(set, url));
        for row in 0..URLS as u8 {
            let url = Url::of(policy, row);
            self.carried[usize::from(row)] = keys(policy, url.host(), |cookie| {
                rule.compares_carried(set, url, cookie)
            });
        }
    }

    fn ask_connections(&mut self, rule: &dyn Rule) {
        let (policy, set) = (&self.policy, self.set);
        let of = |number| Connection::of(policy, number);
        self.connections = mask_of(CONNECTIONS, |n| rule.strikes_on(set, of(n)));
        self.pending = mask_of(CONNECTIONS, |n| rule.compares_pending(set, of(n)));
    }

    fn ask_cookies(&mut self, rule: &dyn Rule) {
        let (policy, set) = (&self.policy, self.set);
        for host in 0..HOSTS {
            self.cookies[host] = keys(policy, host, |cookie| rule.strikes_cookie(set, cookie));
            self.stored[host] = keys(policy, host, |cookie| rule.compares_stored(set, cookie));
        }
    }

    /// What remains of a record, with the URL of a load and the target of a redirect as they are asked for.
    pub fn remains(&self, record: &[u8]) -> Result<Fields, Struck> {
        if self.is_refused {
            return Err(Struck::WithAll);
        }
        let fields = read_input(record).ok_or(Struck::Malformed)?;
        let mut fields = self.asked(fields).ok_or(Struck::UnknownName)?;
        let is_struck = match fields.map {
            LOAD => holds(self.loads, fields.url),
            _ => holds(self.connections, fields.connection),
        };
        if is_struck {
            return Err(Struck::Label(fields));
        }
        let keys = self.struck_keys(fields.url);
        strike(&mut fields, keys);
        Ok(fields)
    }

    /// The record after the replacement, unless 6 fits it.
    fn asked(&self, mut fields: Fields) -> Option<Fields> {
        match fields.map & !COOKIES {
            LOAD => fields.url = self.url_asked(fields.url)?,
            REDIRECT => fields.target = self.url_asked(fields.target)?,
            _ => {}
        }
        let exists = |url: u8| usize::from(url) < URLS && Url::of(&self.policy, url).exists();
        let is_redirect = fields.map & !COOKIES == REDIRECT;
        let is_known = exists(fields.url)
            && (!is_redirect || exists(fields.target))
            && usize::from(fields.connection) < CONNECTIONS
            && usize::from(fields.script) < SCRIPTS;
        is_known.then_some(fields)
    }

    /// The URL that is asked for where this one is named; nothing where the number is above 63.
    pub fn url_asked(&self, url: u8) -> Option<u8> {
        (usize::from(url) < URLS).then(|| upgraded(&self.policy, url))
    }

    /// The keys that are struck from a response or a redirect of this URL.
    pub fn struck_keys(&self, url: u8) -> u8 {
        self.cookies[self.host(url)]
    }

    pub fn strikes_on(&self, connection: u8) -> bool {
        holds(self.connections, connection)
    }

    /// The connections whose responses and redirects are struck, as a mask.
    pub fn struck_connections(&self) -> u64 {
        self.connections
    }

    /// The URLs whose requests are compared, as a mask.
    pub fn compared_urls(&self) -> u64 {
        self.requests
    }

    pub fn excuses(&self, url: u8) -> bool {
        holds(self.excused, url)
    }

    pub fn host(&self, url: u8) -> usize {
        Url::of(&self.policy, url).host()
    }

    /// A wrong comparison, which counts entries among what is guarded.
    #[cfg(test)]
    pub fn compare_entries(&mut self) {
        self.requests |= self.excused;
    }

    /// What is compared of a request. Whether its map has the bit of cookies says nothing that the cookies do not say.
    pub fn view_request(&self, request: &Fields) -> Option<Fields> {
        if self.is_refused {
            return Some(*request);
        }
        if !holds(self.requests, request.url) {
            return None;
        }
        let mut seen = *request;
        strike(&mut seen, !self.carried[usize::from(request.url)]);
        seen.map &= !COOKIES;
        Some(seen)
    }

    /// What is compared of a state, with 0 for all else.
    pub fn view_state(&self, state: &[u32]) -> Vec<u32> {
        let mut seen = state.to_vec();
        if self.is_whole {
            return seen;
        }
        for (host, &keys) in self.stored.iter().enumerate() {
            seen[PRESENT_AT + host] &= u32::from(keys);
            for key in (0..KEYS).filter(|key| keys >> key & 1 == 0) {
                seen[KEYS * host + key] = 0;
            }
        }
        for connection in (0..CONNECTIONS as u8).filter(|&n| !holds(self.pending, n)) {
            seen[OPEN_AT + usize::from(connection)] = 0;
        }
        seen
    }
}

fn holds(mask: u64, place: u8) -> bool {
    mask >> place & 1 == 1
}

/// The keys of a host whose cookie is such.
fn keys(policy: &[u32], host: usize, is_such: impl Fn(Cookie) -> bool) -> u8 {
    mask_of(KEYS, |key| is_such(Cookie::of(policy, host, key))) as u8
}

/// Takes the cookies of these keys away; left with none, a record is the one without cookies.
pub fn strike(fields: &mut Fields, keys: u8) {
    fields.keys &= !keys;
    for key in (0..KEYS).filter(|key| keys >> key & 1 == 1) {
        fields.values[key] = 0;
    }
    if fields.keys == 0 {
        fields.map &= !COOKIES;
    }
}
