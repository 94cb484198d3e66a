//! The sets of a policy with their names, so that a condition on them can tell what is lacking where.

use crate::lack::{Because, Lack, Owner, Set};
use zolherima::{Endpoint, Endpoints, Policy};

/// A set of the policy, and whose it is.
#[derive(Clone, Copy)]
pub struct Label {
    set: Set,
    owner: Owner,
    endpoints: Endpoints,
}

impl Label {
    /// Where the other set is not within this one.
    pub fn must_hold(&self, other: Label) -> Option<Lack> {
        let because = Because::Has {
            set: other.set,
            owner: other.owner,
        };
        self.must_have(other.endpoints, because)
    }

    /// Where the URL's event endpoint is not in this set.
    pub fn must_hold_event(&self, at: &UrlLabels) -> Option<Lack> {
        let because = Because::Event { url: at.url };
        self.must_have(at.address.event().into(), because)
    }

    /// Where the URL's message endpoint is not in this set.
    pub fn must_hold_message(&self, at: &UrlLabels) -> Option<Lack> {
        let because = Because::Message { url: at.url };
        self.must_have(at.address.into(), because)
    }

    fn must_have(&self, needed: Endpoints, because: Because) -> Option<Lack> {
        let missing = needed.except(self.endpoints);
        (!missing.is_empty()).then_some(Lack {
            set: self.set,
            lacking: self.owner,
            missing,
            because,
        })
    }
}

/// What conditions ask of a URL.
pub struct UrlLabels {
    url: u32,
    address: Endpoint,
    pub is_entry: bool,
    pub readers: Label,
    pub writers: Label,
}

impl UrlLabels {
    pub fn of(policy: &Policy, url: u32) -> Option<UrlLabels> {
        let it = policy.url(url)?;
        let owner = Owner::Url(url);
        Some(UrlLabels {
            url,
            address: it.address,
            is_entry: it.is_entry,
            readers: readers(owner, it.readers),
            writers: writers(owner, it.writers),
        })
    }
}

/// What conditions ask of a connection.
pub struct ConnectionLabels {
    pub readers: Label,
    pub script_readers: Label,
    pub writers: Label,
}

impl ConnectionLabels {
    pub fn of(policy: &Policy, connection: u32) -> Option<ConnectionLabels> {
        let it = policy.connection(connection)?;
        let owner = Owner::Connection(connection);
        Some(ConnectionLabels {
            readers: readers(owner, it.readers),
            script_readers: Label {
                set: Set::ScriptReaders,
                owner,
                endpoints: it.script_readers,
            },
            writers: writers(owner, it.writers),
        })
    }
}

/// What conditions ask of a cookie.
pub struct CookieLabels {
    pub readers: Label,
    pub writers: Label,
}

impl CookieLabels {
    pub fn of(policy: &Policy, host: u32, key: u32) -> Option<CookieLabels> {
        let it = policy.cookie(host, key)?;
        let owner = Owner::Cookie { host, key };
        Some(CookieLabels {
            readers: readers(owner, it.readers),
            writers: writers(owner, it.writers),
        })
    }
}

fn readers(owner: Owner, endpoints: Endpoints) -> Label {
    Label {
        set: Set::Readers,
        owner,
        endpoints,
    }
}

fn writers(owner: Owner, endpoints: Endpoints) -> Label {
    Label {
        set: Set::Writers,
        owner,
        endpoints,
    }
}
