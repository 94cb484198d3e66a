//! What can be made to happen under a policy, found by feeding the library.

use cases::labels::{HOSTS, KEYS, PRESENT_AT};
use zolherima::{
    requests, Cookies, Policy, Record, Step, CONNECTIONS, SCRIPT_BYTES, STEPS, STEP_BYTES, URLS,
};

use crate::library::{empty_state, fed, Fed};

/// Where the connections stand in a state.
const OPEN_AT: usize = PRESENT_AT + HOSTS;

/// The kind of a script's request in a state.
const SCRIPT_KIND: u32 = 2;

pub struct Runs<'a> {
    pub policy: &'a Policy,
    /// For each connection the URLs of which a load is accepted on it, bit u for URL u.
    loads: [u64; CONNECTIONS],
    /// For each connection those on which a script that runs there may request something, bit c for connection c.
    leads: [u32; CONNECTIONS],
}

/// A script table whose scripts all begin with a step, and then end.
pub fn table(step: [u8; STEP_BYTES]) -> Vec<u8> {
    let mut table = vec![0; SCRIPT_BYTES];
    for script in table.chunks_exact_mut(STEPS * STEP_BYTES) {
        script[..STEP_BYTES].copy_from_slice(&step);
    }
    table
}

impl<'a> Runs<'a> {
    pub fn of(policy: &'a Policy) -> Runs<'a> {
        let is_loaded = |connection: usize, url: usize| {
            let record = Record::load(url as u8, connection as u8);
            let fed = fed(policy.words(), &[0; SCRIPT_BYTES], &empty_state(), &record);
            fed.answer.is_ok()
        };
        let loads = std::array::from_fn(|connection| {
            let bit = |url| u64::from(is_loaded(connection, url)) << url;
            (0..URLS).map(bit).sum()
        });
        let leads = [0; CONNECTIONS];
        let mut runs = Runs {
            policy,
            loads,
            leads,
        };
        runs.leads = std::array::from_fn(|from| {
            let bit = |to| u32::from(runs.requests(from, to)) << to;
            (0..CONNECTIONS).map(bit).sum()
        });
        runs
    }

    pub fn loads(&self, connection: usize, url: usize) -> bool {
        self.loads[connection] >> url & 1 == 1
    }

    /// A URL that a connection can hold.
    pub fn held(&self, connection: usize) -> Option<u8> {
        let loads = self.loads.get(connection)?;
        let loaded = (0..URLS).find(|&url| loads >> url & 1 == 1)?;
        Some(self.policy.asked_for(loaded as u32) as u8)
    }

    fn host_of(&self, url: usize) -> Option<usize> {
        let url = self.policy.url(url as u32)?;
        Some(url.address.host() as usize)
    }

    /// Runs a script of a page on a connection, as the handler of a request whose response arrives with a value. None where the connection fits nothing.
    pub fn script(
        &self,
        page: u8,
        connection: usize,
        step: [u8; STEP_BYTES],
        value: u32,
    ) -> Option<Fed> {
        let held = self.held(connection)?;
        let mut state = empty_state();
        let host = self.host_of(page.into())?;
        // All cookies of the page are there, so that none of them is missed.
        state[PRESENT_AT + host] = (1 << KEYS) - 1;
        state[OPEN_AT + connection] = SCRIPT_KIND << 24 | u32::from(page) << 16 | u32::from(held);
        let record = Record::script_response(held, connection as u8, &Cookies::NONE, value);
        Some(fed(self.policy.words(), &table(step), &state, &record))
    }

    /// Whether a response, or a script of a page of the host where such can run, stores a cookie.
    pub fn stores(&self, host: usize, key: usize, scripts: &[(u8, usize)]) -> bool {
        let step = Step::Write {
            key: key as u8,
            register: 0,
        };
        let is_written = |&(page, connection): &(u8, usize)| {
            let fed = self.script(page, connection, step.bytes(), 1);
            fed.is_some_and(|fed| fed.state[KEYS * host + key] == 1)
        };
        let mut connections = 0..CONNECTIONS;
        connections.any(|connection| self.brings(connection, host, key))
            || scripts.iter().any(is_written)
    }

    /// By a document's response.
    fn brings(&self, connection: usize, host: usize, key: usize) -> bool {
        let of_host = |url: &usize| self.host_of(*url) == Some(host);
        let asked = |url: usize| self.policy.asked_for(url as u32) as usize;
        let loaded = (0..URLS).filter(|&url| self.loads(connection, url));
        let Some(url) = loaded.map(asked).find(of_host) else {
            return false;
        };
        let (words, scripts) = (self.policy.words(), [0; SCRIPT_BYTES]);
        let load = Record::load(url as u8, connection as u8);
        let state = fed(words, &scripts, &empty_state(), &load).state;
        let cookies = Cookies::NONE.with(key as u32, 1).expect("it is a key");
        let response = Record::document_response(url as u8, connection as u8, &cookies, 0);
        let fed = fed(words, &scripts, &state, &response);
        fed.state[KEYS * host + key] == 1
    }

    /// The connections on which a script of some page of a host can run, each with such a page: where the page is loaded, and where its requests go.
    pub fn script_connections(&self, host: usize) -> Vec<(u8, usize)> {
        let mut found: Vec<(u8, usize)> = Vec::new();
        for connection in 0..CONNECTIONS {
            let asked = |url: usize| self.policy.asked_for(url as u32) as usize;
            let loaded = (0..URLS).filter(|&url| self.loads(connection, url));
            let page = loaded
                .map(asked)
                .find(|&url| self.host_of(url) == Some(host));
            found.extend(page.map(|page| (page as u8, connection)));
        }
        let mut next = 0;
        while let Some(&(page, from)) = found.get(next) {
            let is_new = |to: &usize| found.iter().all(|it| it.1 != *to);
            let led = (0..CONNECTIONS).filter(|to| self.leads[from] >> to & 1 == 1);
            let led: Vec<usize> = led.filter(is_new).collect();
            found.extend(led.into_iter().map(|to| (page, to)));
            next += 1;
        }
        found
    }

    /// Whether a script on one connection may request something on another, whatever its page is.
    fn requests(&self, from: usize, to: usize) -> bool {
        let Some(page) = self.held(from) else {
            return false;
        };
        let mut urls = (0..URLS).filter(|&url| self.loads(to, url));
        urls.any(|url| {
            let step = Step::Request {
                url: url as u8,
                connection: to as u8,
                handler: 0,
            };
            let fed = self.script(page, from, step.bytes(), 0);
            fed.is_some_and(|fed| !fed.out.is_empty())
        })
    }

    /// Whether a load carries a cookie that is present.
    pub fn sends(&self, host: usize, key: usize) -> bool {
        let mut state = empty_state();
        state[PRESENT_AT + host] = 1 << key;
        let all =
            (0..CONNECTIONS).flat_map(|connection| (0..URLS).map(move |url| (connection, url)));
        let mut loaded = all.filter(|&(connection, url)| self.loads(connection, url));
        loaded.any(|(connection, url)| {
            let load = Record::load(url as u8, connection as u8);
            let fed = fed(self.policy.words(), &[0; SCRIPT_BYTES], &state, &load);
            let mut sent = requests(&fed.out).flatten();
            sent.any(|request| {
                self.host_of(request.url.into()) == Some(host) && !request.cookies.is_empty()
            })
        })
    }
}
