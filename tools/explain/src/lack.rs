//! What a policy lacks: a condition that fails, with every endpoint that is missing in it.

use zolherima::{Endpoints, Refusal};

/// Which set of an owner.
#[derive(Clone, Copy, Debug, PartialEq, Eq, Hash)]
pub enum Set {
    /// Who may learn of it.
    Readers,
    /// Who may learn of what the scripts of a connection do.
    ScriptReaders,
    /// Who may have shaped it.
    Writers,
}

/// What has sets in a policy, by its number.
#[derive(Clone, Copy, Debug, PartialEq, Eq, Hash)]
pub enum Owner {
    /// A URL.
    Url(u32),
    /// A connection.
    Connection(u32),
    /// A cookie.
    Cookie {
        /// The host to which it belongs.
        host: u32,
        /// Its key there.
        key: u32,
    },
}

/// A condition that fails: a set lacks endpoints that it would have to have.
#[derive(Clone, Copy, Debug, PartialEq, Eq, Hash)]
pub struct Lack {
    /// Which set of the one that lacks them.
    pub set: Set,
    /// Whose set it is.
    pub lacking: Owner,
    /// All the endpoints that it lacks; never empty.
    pub missing: Endpoints,
    /// Who has them or needs them.
    pub because: Because,
}

impl Lack {
    /// The refusal that a record gets where this is the first condition that fails. None where nothing is missing.
    pub fn refusal(&self) -> Option<Refusal> {
        let missing = self.missing.lowest()?;
        Some(match self.set {
            Set::Writers => Refusal::WritersForbid { missing },
            Set::Readers | Set::ScriptReaders => Refusal::ReadersForbid { missing },
        })
    }
}

/// Why a set would have to have endpoints.
#[derive(Clone, Copy, Debug, PartialEq, Eq, Hash)]
pub enum Because {
    /// This set has them, and must be within the lacking one.
    Has {
        /// Which set of the owner.
        set: Set,
        /// Whose set it is.
        owner: Owner,
    },
    /// It is the event endpoint of the URL: http at its host.
    Event {
        /// The URL.
        url: u32,
    },
    /// It is the message endpoint of the URL: its address.
    Message {
        /// The URL.
        url: u32,
    },
}
