//! What is wrong with a policy.

use core::fmt;

use crate::{Endpoint, CONNECTIONS, HOSTS, KEYS, URLS};

/// Why words are no policy that is well formed.
#[derive(Clone, Copy, Debug, PartialEq, Eq, Hash)]
pub enum Fault {
    /// There are more or fewer than [`POLICY_WORDS`](crate::POLICY_WORDS) words.
    Length {
        /// How many there are.
        words: usize,
    },
    /// A number that was given to a [`PolicyBuilder`](crate::PolicyBuilder) is out of range.
    NumberAbove {
        /// Of what it is the number.
        what: Named,
        /// The number.
        number: u32,
    },
    /// The first word of a URL is neither an address, nor [`ENTRY`](crate::ENTRY) more than one, nor that of an empty row.
    Address {
        /// The URL.
        url: u32,
        /// Its first word.
        word: u32,
    },
    /// A row that is not in use has readers or writers.
    EmptyRowLabelled {
        /// The row.
        url: u32,
    },
    /// The readers of a URL lack its event endpoint, http at its host.
    EventEndpoint {
        /// The URL.
        url: u32,
        /// Its event endpoint.
        missing: Endpoint,
    },
    /// The readers of a connection lack one of its script readers.
    ScriptReaders {
        /// The connection.
        connection: u32,
        /// The lowest of the script readers that the readers lack.
        missing: Endpoint,
    },
    /// A host above 15 is listed as always https.
    HostsAbove {
        /// The word of the hosts that are always https.
        word: u32,
    },
    /// A URL by http at a host that is always https has no partner.
    PartnerMissing {
        /// The URL.
        url: u32,
    },
    /// The partner of a URL by http at a host that is always https is no URL, not by https, or at another host.
    PartnerUnfit {
        /// The URL.
        url: u32,
        /// What stands as its partner.
        partner: u32,
    },
    /// A row that is no URL by http at a host that is always https has a partner.
    PartnerUncalled {
        /// The row.
        url: u32,
        /// What stands as its partner.
        partner: u32,
    },
}

/// What a number names in a policy.
#[derive(Clone, Copy, Debug, PartialEq, Eq, PartialOrd, Ord, Hash)]
pub enum Named {
    /// A host, 0 to 15.
    Host,
    /// The key of a host's cookie, 0 to 7.
    Key,
    /// A URL, 0 to 63.
    Url,
    /// A connection, 0 to 31.
    Connection,
}

impl fmt::Display for Fault {
    fn fmt(&self, to: &mut fmt::Formatter<'_>) -> fmt::Result {
        match *self {
            Fault::Length { words } => write!(to, "a policy does not have {words} words"),
            Fault::NumberAbove { what, number } => write!(to, "there is no {what} {number}"),
            Fault::Address { url, word } => write!(to, "URL {url}: {word} is no address"),
            Fault::EmptyRowLabelled { url } => {
                write!(to, "URL {url} is not in use and has readers or writers")
            }
            Fault::EventEndpoint { url, missing } => {
                write!(to, "URL {url}: readers lack its event endpoint, {missing}")
            }
            Fault::ScriptReaders {
                connection: it,
                missing,
            } => write!(to, "connection {it}: readers lack a script reader, {missing}"),
            Fault::HostsAbove { word } => {
                write!(to, "hosts above 15 are always https: {word:#010x}")
            }
            Fault::PartnerMissing { url } => {
                write!(to, "URL {url} needs a partner: its host is always https")
            }
            Fault::PartnerUnfit { url, partner } => write!(
                to,
                "URL {url}: its partner, {partner}, is no URL by https at its host"
            ),
            Fault::PartnerUncalled { url, partner } => write!(
                to,
                "URL {url}: it has a partner, {partner}, and is not by http at a host that is always https"
            ),
        }
    }
}

impl core::error::Error for Fault {}

impl Named {
    /// Its numbers are below this.
    pub(crate) const fn end(self) -> usize {
        match self {
            Named::Host => HOSTS,
            Named::Key => KEYS,
            Named::Url => URLS,
            Named::Connection => CONNECTIONS,
        }
    }
}

impl fmt::Display for Named {
    fn fmt(&self, to: &mut fmt::Formatter<'_>) -> fmt::Result {
        to.write_str(match self {
            Named::Host => "host",
            Named::Key => "key",
            Named::Url => "URL",
            Named::Connection => "connection",
        })
    }
}
