//! What the tests share: document 01's policy P, and sessions in which each record is held against the library.

// each test file has a copy of its own, and not every one calls everything
#![allow(dead_code)]

use explain::{explain_and_compare, Because, Event, Explained, Lack, Owner, Set, Why};
use zolherima::{
    Connection, Endpoint, Endpoints, Labels, Pending, PendingKind, Policy, PolicyBuilder, Refusal,
    Scripts, State, Step, Url,
};

/// Document 01's example: https of host 0 is the canteen, host 1 the bank.
pub fn policy_p() -> PolicyBuilder {
    let all = u32::MAX;
    let mut policy = PolicyBuilder::new();
    policy
        .url(0, url(16, 0x0001_0001, 0x0001_0000))
        .url(1, url(1, all, all))
        .url(2, url(17, all, 0x0003_0000))
        .url(3, url(0, 0x0001_0001, 0x0001_0001))
        .connection(0, connection(0x0001_0001, 0x0001_0000))
        .connection(1, connection(all, all))
        .connection(2, connection(0x0001_0000, 0x0001_0000))
        .connection(3, connection(0x0001_0001, 0x0001_0001))
        .cookie(0, 0, labels(0x0001_0000, 0x0001_0000));
    policy
}

pub fn url(address: u32, readers: u32, writers: u32) -> Url {
    Url {
        address: endpoint(address),
        is_entry: false,
        readers: set(readers),
        writers: set(writers),
    }
}

pub fn connection(readers: u32, writers: u32) -> Connection {
    Connection {
        readers: set(readers),
        script_readers: set(readers),
        writers: set(writers),
    }
}

pub fn labels(readers: u32, writers: u32) -> Labels {
    Labels {
        readers: set(readers),
        writers: set(writers),
    }
}

pub fn endpoint(number: u32) -> Endpoint {
    Endpoint::new(number).unwrap()
}

pub fn set(bits: u32) -> Endpoints {
    Endpoints::from_bits(bits)
}

/// A session that is explained record by record.
pub struct Post {
    pub policy: Policy,
    pub scripts: Scripts,
    pub state: State,
}

impl Post {
    pub fn new(policy: &PolicyBuilder) -> Post {
        Post {
            policy: policy.build().unwrap(),
            scripts: Scripts::new(),
            state: State::new(),
        }
    }

    pub fn script(mut self, script: u32, steps: &[Step]) -> Post {
        self.scripts.set(script, steps).unwrap();
        self
    }

    /// Explains a record; panics where the library differs.
    pub fn feed(&mut self, record: &[u8]) -> Explained {
        explain_and_compare(&self.policy, &self.scripts, &mut self.state, record)
            .unwrap_or_else(|difference| panic!("{difference}"))
    }

    /// The events of a record that is accepted.
    pub fn events(&mut self, record: &[u8]) -> Vec<Event> {
        let explained = self.feed(record);
        explained.outcome.unwrap();
        explained.events
    }

    /// Why a record is refused.
    pub fn refused(&mut self, record: &[u8]) -> (Refusal, Why) {
        self.feed(record).outcome.unwrap_err()
    }
}

/// A set lacks endpoints that another has.
pub fn lacks(
    (set_lacking, lacking): (Set, Owner),
    missing: u32,
    (set_having, owner): (Set, Owner),
) -> Lack {
    Lack {
        set: set_lacking,
        lacking,
        missing: set(missing),
        because: Because::Has {
            set: set_having,
            owner,
        },
    }
}

/// A set lacks the event endpoint of a URL.
pub fn lacks_event((set, lacking): (Set, Owner), endpoint_lacking: u32, url: u32) -> Lack {
    Lack {
        set,
        lacking,
        missing: endpoint(endpoint_lacking).into(),
        because: Because::Event { url },
    }
}

/// A set lacks the message endpoint of a URL.
pub fn lacks_message((set, lacking): (Set, Owner), endpoint_lacking: u32, url: u32) -> Lack {
    Lack {
        set,
        lacking,
        missing: endpoint(endpoint_lacking).into(),
        because: Because::Message { url },
    }
}

pub fn document(url: u8) -> Pending {
    Pending {
        kind: PendingKind::Document,
        url,
    }
}

pub fn picture(url: u8) -> Pending {
    Pending {
        kind: PendingKind::Picture,
        url,
    }
}

pub fn script_request(url: u8, origin: u8, handler: u8) -> Pending {
    Pending {
        kind: PendingKind::Script { origin, handler },
        url,
    }
}
