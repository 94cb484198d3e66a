//! Cookies: those that a record brings, and those that a request carries.

use crate::event::Event;
use crate::lack::Lack;
use crate::machine::Machine;
use crate::rules;
use zolherima::{Cookies, Said};

/// The keys of cookies that a request does not carry, and why.
pub type Withheld = Vec<(u32, Vec<Lack>)>;

impl Machine<'_> {
    /// Stores or passes over each cookie of a response or redirect. They belong to the host of the URL that it names.
    pub fn deliver(&mut self, said: &Said) {
        let host = self.host(said.url);
        for (key, value) in said.cookies.iter() {
            self.deliver_one(said.connection, host, key, value);
        }
    }

    fn deliver_one(&mut self, connection: u8, host: u32, key: u32, value: u32) {
        let lacks = rules::store(self.policy, connection.into(), host, key);
        if !lacks.is_empty() {
            self.events.push(Event::PassedOver {
                host,
                key,
                value,
                lacks,
            });
            return;
        }
        self.events.push(Event::Stored {
            host,
            key,
            value,
            before: self.state.cookie(host, key),
        });
        self.set_cookie(host, key, value);
    }

    /// The cookies present at the URL's host, those that a request to it carries apart from those that it does not.
    pub fn carried(&self, url: u8) -> (Cookies, Withheld) {
        let host = self.host(url);
        let mut carried = Cookies::NONE;
        let mut withheld = Vec::new();
        for (key, value) in self.state.cookies(host).iter() {
            let lacks = rules::carry(self.policy, url.into(), host, key);
            if lacks.is_empty() {
                carried = carried.with(key, value).unwrap_or(carried);
            } else {
                withheld.push((key, lacks));
            }
        }
        (carried, withheld)
    }
}
