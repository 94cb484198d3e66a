//! Names for all that is printed: those of a plan, and numbers where there is none.

use zolherima::{Endpoint, Endpoints, Scheme, HOSTS, REGISTERS};

use crate::plan::{Named, Plan};

/// The names of everything by number, declared or not.
#[derive(Clone, Copy, Debug)]
pub struct Names<'a> {
    plan: &'a Plan,
}

fn name<T>(all: &[Option<Named<T>>], number: u32) -> Option<&str> {
    let it = all.get(usize::try_from(number).ok()?)?.as_ref()?;
    Some(&it.name)
}

fn or_number(name: Option<&str>, kind: &str, number: u32) -> String {
    match name {
        Some(name) => name.to_string(),
        None => format!("{kind} {number}"),
    }
}

impl<'a> Names<'a> {
    /// The names that a plan declares.
    pub const fn of(plan: &'a Plan) -> Names<'a> {
        Names { plan }
    }

    /// `canteen`, or `host 3`.
    pub fn host(&self, number: u32) -> String {
        or_number(self.declared_host(number), "host", number)
    }

    fn declared_host(&self, number: u32) -> Option<&'a str> {
        name(&self.plan.hosts, number)
    }

    /// `top-up`, or `URL 3`.
    pub fn url(&self, number: u32) -> String {
        or_number(name(&self.plan.urls, number), "URL", number)
    }

    /// `shop`, or `connection 3`.
    pub fn connection(&self, number: u32) -> String {
        or_number(name(&self.plan.connections, number), "connection", number)
    }

    /// `start`, or `script 3`.
    pub fn script(&self, number: u32) -> String {
        or_number(name(&self.plan.scripts, number), "script", number)
    }

    /// `session of canteen`, `key 3 of canteen`, or `key 3 of host 0`.
    pub fn cookie(&self, host: u32, key: u32) -> String {
        let keys = self.plan.cookies.get(host as usize);
        let declared = keys.and_then(|keys| name(keys, key));
        format!("{} of {}", or_number(declared, "key", key), self.host(host))
    }

    /// `token`, `r1`, or `register 9` where scripts have none of this number.
    pub fn register(&self, script: u32, number: u32) -> String {
        let script = self.plan.scripts.get(script as usize);
        let script = script.and_then(Option::as_ref);
        let named = script.and_then(|script| script.it.registers.get(number as usize));
        match named {
            Some(name) => name.clone(),
            None if (number as usize) < REGISTERS => format!("r{number}"),
            None => format!("register {number}"),
        }
    }

    /// `https canteen`, or `https at host 3`.
    pub fn endpoint(&self, endpoint: Endpoint) -> String {
        match self.declared_host(endpoint.host()) {
            Some(name) => format!("{} {name}", endpoint.scheme()),
            None => endpoint.to_string(),
        }
    }

    /// `everyone`, `nobody`, `canteen, http bank` or `everyone except https bank`, whichever is shortest.
    pub fn set(&self, set: Endpoints) -> String {
        written(
            set,
            |host| self.host(host),
            |endpoint| self.endpoint(endpoint),
        )
    }
}

/// A set in the words of the language.
pub(crate) fn written(
    set: Endpoints,
    host: impl Fn(u32) -> String,
    endpoint: impl Fn(Endpoint) -> String,
) -> String {
    let (is_inverse, items) = items(set);
    let item = |item: &Item| match *item {
        Item::Host(number) => host(number),
        Item::One(one) => endpoint(one),
    };
    let words: Vec<_> = items.iter().map(item).collect();
    match (is_inverse, words.is_empty()) {
        (true, true) => "everyone".to_string(),
        (false, true) => "nobody".to_string(),
        (true, false) => format!("everyone except {}", words.join(", ")),
        (false, false) => words.join(", "),
    }
}

/// A part of a set that has words.
pub(crate) enum Item {
    /// Both endpoints of a host.
    Host(u32),
    One(Endpoint),
}

/// The shorter list: of what a set has, or (where true is given) of what it has not.
pub(crate) fn items(set: Endpoints) -> (bool, Vec<Item>) {
    let has = listed(set);
    let lacks = listed(Endpoints::EVERYONE.except(set));
    if lacks.len() < has.len() {
        (true, lacks)
    } else {
        (false, has)
    }
}

fn listed(set: Endpoints) -> Vec<Item> {
    let hosts = 0..HOSTS as u32;
    hosts.filter_map(|host| item(set, host)).collect()
}

fn item(set: Endpoints, host: u32) -> Option<Item> {
    let of = |scheme| match scheme {
        Scheme::Http => Endpoint::http(host),
        Scheme::Https => Endpoint::https(host),
    };
    let present = |scheme| of(scheme).filter(|endpoint| set.has(*endpoint));
    match (present(Scheme::Http), present(Scheme::Https)) {
        (Some(_), Some(_)) => Some(Item::Host(host)),
        (http, https) => http.or(https).map(Item::One),
    }
}

#[cfg(test)]
mod tests {
    use super::*;

    const TEXT: &[u8] = b"host canteen\nhost bank\ncookie token of bank\n readers bank\n writers bank\n\
        url menu at http bank\n readers bank\n writers bank\nconnection shop\n readers bank\n writers bank\n\
        script start\n registers sum\n";

    fn bits(bits: u32) -> Endpoints {
        Endpoints::from_bits(bits)
    }

    #[test]
    fn declared_names() {
        let plan = crate::parse(TEXT).unwrap();
        let names = Names::of(&plan);
        let told = [
            names.host(1),
            names.url(0),
            names.connection(0),
            names.script(0),
        ];
        assert_eq!(told, ["bank", "menu", "shop", "start"]);
        let told = [names.cookie(1, 0), names.cookie(1, 2), names.cookie(9, 2)];
        assert_eq!(told, ["token of bank", "key 2 of bank", "key 2 of host 9"]);
        let told = [
            names.register(0, 0),
            names.register(0, 1),
            names.register(0, 4),
        ];
        assert_eq!(told, ["sum", "r1", "register 4"]);
        let told = [1, 17, 18].map(|number| names.endpoint(Endpoint::new(number).unwrap()));
        assert_eq!(told, ["http bank", "https bank", "https at host 2"]);
        assert_eq!(names.set(bits(0x0001_0003)), "canteen, http bank");
        assert_eq!(names.set(bits(0xfffe_fffe)), "everyone except canteen");
        assert_eq!(names.set(bits(0xfffd_ffff)), "everyone except https bank");
        assert_eq!(
            names.set(bits(0x0004_0008)),
            "https at host 2, http at host 3"
        );
    }

    #[test]
    fn what_is_not_declared_has_numbers() {
        let plan = crate::parse(b"").unwrap();
        let names = Names::of(&plan);
        let told = [
            names.host(1),
            names.url(2),
            names.connection(3),
            names.script(u32::MAX),
        ];
        assert_eq!(
            told,
            ["host 1", "URL 2", "connection 3", "script 4294967295"]
        );
        assert_eq!(names.cookie(u32::MAX, 8), "key 8 of host 4294967295");
        assert_eq!(names.register(16, 3), "r3");
        assert_eq!(names.set(Endpoints::EVERYONE), "everyone");
        assert_eq!(names.set(Endpoints::NOBODY), "nobody");
        assert_eq!(names.set(bits(0x0002_0002)), "host 1");
    }
}
