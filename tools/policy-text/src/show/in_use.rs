//! What a text must declare.

use zolherima::{
    Endpoints, Policy, RecordKind, Scripts, Step, CONNECTIONS, HOSTS, KEYS, SCRIPTS, URLS,
};

use super::phrases::{said_record, said_step, steps_of};
use crate::names::{items, Item};

/// What is in use: bit n stands for number n.
#[derive(Default)]
pub(super) struct InUse {
    pub hosts: u32,
    pub connections: u32,
    pub scripts: u32,
    /// For each host its keys.
    cookies: [u32; HOSTS],
}

impl InUse {
    pub fn of(policy: &Policy, scripts: &Scripts, records: &[&[u8]]) -> InUse {
        let mut in_use = InUse::default();
        for record in records {
            in_use.record(policy, record);
        }
        in_use.scripts(policy, scripts);
        in_use.urls(policy);
        in_use.cookies(policy);
        in_use.connections(policy);
        in_use
    }

    pub fn has_cookie(&self, host: u32, key: u32) -> bool {
        let keys = self.cookies.get(host as usize);
        keys.is_some_and(|keys| keys & 1 << key != 0)
    }

    fn record(&mut self, policy: &Policy, record: &[u8]) {
        let Some((said, host)) = said_record(policy, record) else {
            return;
        };
        self.connections |= 1 << said.connection;
        if let RecordKind::DocumentResponse { script } = said.kind {
            self.scripts |= 1 << script;
        }
        if let Some(keys) = self.cookies.get_mut(host as usize) {
            *keys |= u32::from(said.cookies.key_map());
        }
    }

    fn scripts(&mut self, policy: &Policy, scripts: &Scripts) {
        let numbers = 0..SCRIPTS as u32;
        let steps = numbers.flat_map(|script| {
            let steps = steps_of(scripts, script).into_iter();
            steps.map(move |step| (script, step))
        });
        for (script, step) in steps {
            self.scripts |= 1 << script;
            self.step(said_step(policy, step));
        }
    }

    fn step(&mut self, step: Option<Step>) {
        match step {
            Some(Step::Request {
                connection,
                handler,
                ..
            }) => {
                self.connections |= 1 << connection;
                self.scripts |= 1 << handler;
            }
            Some(Step::Picture { connection, .. }) => self.connections |= 1 << connection,
            _ => {}
        }
    }

    fn urls(&mut self, policy: &Policy) {
        for url in (0..URLS as u32).filter_map(|url| policy.url(url)) {
            self.hosts |= 1 << url.address.host();
            self.sets(&[url.readers, url.writers]);
        }
        let always_https = (0..HOSTS as u32).filter(|host| policy.is_always_https(*host));
        self.hosts |= always_https.fold(0, |hosts, host| hosts | 1 << host);
    }

    fn cookies(&mut self, policy: &Policy) {
        let all = (0..HOSTS as u32).flat_map(|host| (0..KEYS as u32).map(move |key| (host, key)));
        for (host, key) in all {
            let Some(it) = policy.cookie(host, key) else {
                continue;
            };
            let has_label = !it.readers.and(it.writers).is_empty();
            if has_label || self.has_cookie(host, key) {
                self.cookies[host as usize] |= 1 << key;
                self.hosts |= 1 << host;
                self.sets(&[it.readers, it.writers]);
            }
        }
    }

    fn connections(&mut self, policy: &Policy) {
        let numbers = 0..CONNECTIONS as u32;
        let all = numbers.filter_map(|number| Some((number, policy.connection(number)?)));
        for (number, it) in all {
            // The script readers are within the readers.
            if !it.readers.and(it.writers).is_empty() {
                self.connections |= 1 << number;
                self.sets(&[it.readers, it.script_readers, it.writers]);
            }
        }
    }

    /// The hosts that the words of some sets name.
    fn sets(&mut self, sets: &[Endpoints]) {
        let all = sets.iter().flat_map(|set| items(*set).1);
        for item in all {
            self.hosts |= 1
                << match item {
                    Item::Host(host) => host,
                    Item::One(one) => one.host(),
                };
        }
    }
}
