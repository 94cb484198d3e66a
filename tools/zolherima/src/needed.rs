//! What a connection's sets have for something: what is allowed or meant now, and would not be allowed without it.

use explain::{rules, Set};
use policy_text::{Named, Script};
use zolherima::{Endpoint, Endpoints, Step, CONNECTIONS, KEYS};

use crate::words::Words;

impl Words<'_> {
    /// Those that a set of a connection is not to lose.
    pub fn needed(&self, connection: u32, of: Set) -> Endpoints {
        let fitted: Vec<u32> = self.urls_on(connection).collect();
        let addresses = fitted.iter().filter_map(|&url| self.address(url));
        match of {
            Set::Writers => all([
                addresses.collect(),
                self.asking(connection),
                self.shaping(connection),
            ]),
            Set::ScriptReaders => self.told(connection),
            Set::Readers => all([
                addresses.map(Endpoint::event).collect(),
                self.told(connection),
                self.keeping(connection, &fitted),
            ]),
        }
    }

    fn address(&self, url: u32) -> Option<Endpoint> {
        self.policy.url(url).map(|url| url.address)
    }

    /// The steps of the scripts that can run on a connection, with the host of their page: those of a page that it fits or of no page, and
    /// handlers of what is asked for on it.
    fn steps_on(&self, connection: u32) -> Vec<(Option<u32>, Step)> {
        let fitted: Vec<u32> = self.urls_on(connection).collect();
        let handlers = self.handlers(connection);
        let scripts = (0..).zip(&self.plan.scripts);
        let scripts = scripts.filter_map(|(number, script)| Some((number, script.as_ref()?)));
        let runs = |(number, script): &(u8, &Named<Script>)| {
            let page = script.it.page.map(|page| self.policy.asked_for(page.it));
            page.map_or(true, |page| fitted.contains(&page)) || handlers.contains(number)
        };
        let steps = scripts.filter(runs).flat_map(|(_, script)| {
            let host = script.it.page.map(|page| self.host_of_url(page.it));
            let steps = script.it.steps.iter();
            steps.map(move |step| (host, Step::of(step.it)))
        });
        steps.collect()
    }

    fn handlers(&self, on: u32) -> Vec<u8> {
        let scripts = self.plan.scripts.iter().flatten();
        let steps = scripts.flat_map(|script| &script.it.steps);
        let handler = |step| match Step::of(step) {
            Step::Request {
                connection,
                handler,
                ..
            } if u32::from(connection) == on => Some(handler),
            _ => None,
        };
        steps.filter_map(|step| handler(step.it)).collect()
    }

    /// The writers of the connections whose scripts ask for something on this one.
    fn asking(&self, connection: u32) -> Endpoints {
        let others = (0..CONNECTIONS as u32).filter(|&from| from != connection);
        let asks = |from: &u32| {
            let steps = self.steps_on(*from);
            let mut asked = steps.iter().filter_map(|(_, step)| asked(*step));
            asked.any(|(url, on)| on == connection && self.may_ask(*from, url, on))
        };
        let labels = |from| self.policy.connection(from).unwrap_or_default();
        all(others.filter(asks).map(|from| labels(from).writers))
    }

    fn may_ask(&self, from: u32, url: u32, on: u32) -> bool {
        rules::request(self.policy, from, self.policy.asked_for(url), on).is_empty()
    }

    /// The writers of the cookies that scripts on a connection read.
    fn shaping(&self, connection: u32) -> Endpoints {
        let steps = self.steps_on(connection).into_iter();
        let read = steps.filter_map(|(host, step)| match step {
            Step::Read { key, .. } => Some((host?, u32::from(key))),
            _ => None,
        });
        let may =
            |(host, key): &(u32, u32)| rules::read(self.policy, connection, *host, *key).is_empty();
        let cookies = read.filter(may);
        all(cookies.filter_map(|(host, key)| Some(self.policy.cookie(host, key)?.writers)))
    }

    /// Who learns what scripts on a connection do: who sees what they ask for, and who reads where they ask and what they write.
    fn told(&self, connection: u32) -> Endpoints {
        let steps = self.steps_on(connection).into_iter();
        all(steps.map(|(host, step)| self.told_by(connection, host, step)))
    }

    fn told_by(&self, connection: u32, host: Option<u32>, step: Step) -> Endpoints {
        if let Some((url, on)) = asked(step) {
            let address = self.address(self.policy.asked_for(url));
            let seen = address.map(Endpoint::event).into_iter().collect();
            let labels = self.policy.connection(on).unwrap_or_default();
            return match self.may_ask(connection, url, on) {
                true => labels.readers.and(seen),
                false => seen,
            };
        }
        match (step, host) {
            (Step::Write { key, .. }, Some(host))
                if rules::write(self.policy, connection, host, key.into()).is_empty() =>
            {
                let cookie = self.policy.cookie(host, key.into());
                cookie.unwrap_or_default().readers
            }
            _ => Endpoints::NOBODY,
        }
    }

    /// The readers of the cookies that answers on a connection can set.
    fn keeping(&self, connection: u32, fitted: &[u32]) -> Endpoints {
        let hosts = fitted.iter().map(|&url| self.host_of_url(url));
        let cookies = hosts.flat_map(|host| (0..KEYS as u32).map(move |key| (host, key)));
        let may = |(host, key): &(u32, u32)| {
            rules::store(self.policy, connection, *host, *key).is_empty()
        };
        let set = cookies.filter(may);
        all(set.filter_map(|(host, key)| Some(self.policy.cookie(host, key)?.readers)))
    }
}

/// The URL that a step asks for, and on which connection.
fn asked(step: Step) -> Option<(u32, u32)> {
    match step {
        Step::Request {
            url, connection, ..
        }
        | Step::Picture { url, connection } => Some((url.into(), connection.into())),
        _ => None,
    }
}

fn all(sets: impl IntoIterator<Item = Endpoints>) -> Endpoints {
    sets.into_iter().fold(Endpoints::NOBODY, Endpoints::and)
}
