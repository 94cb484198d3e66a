//! The kinds of things that have names.

use std::fmt;

use zolherima::{CONNECTIONS, HOSTS, KEYS, SCRIPTS, URLS};

#[derive(Clone, Copy, Debug, PartialEq, Eq, Hash)]
pub(crate) enum Kind {
    Host,
    Cookie,
    Url,
    Connection,
    Script,
}

impl Kind {
    pub const ALL: [Kind; 5] = [
        Kind::Host,
        Kind::Cookie,
        Kind::Url,
        Kind::Connection,
        Kind::Script,
    ];

    /// The word that begins its declaration.
    pub const fn word(self) -> &'static str {
        match self {
            Kind::Host => "host",
            Kind::Cookie => "cookie",
            Kind::Url => "url",
            Kind::Connection => "connection",
            Kind::Script => "script",
        }
    }

    /// The form of its declaration.
    pub const fn form(self) -> &'static str {
        match self {
            Kind::Host => "host NAME [always https] [number N]",
            Kind::Cookie => "cookie NAME of HOST [number N]",
            Kind::Url => "url NAME at http|https HOST [entry] [number N]",
            Kind::Connection => "connection NAME [number N]",
            Kind::Script => "script NAME [for URL] [number N]",
        }
    }

    /// How many there can be: hosts, cookies of a host, URLs, connections or scripts.
    pub const fn most(self) -> usize {
        match self {
            Kind::Host => HOSTS,
            Kind::Cookie => KEYS,
            Kind::Url => URLS,
            Kind::Connection => CONNECTIONS,
            Kind::Script => SCRIPTS,
        }
    }
}

impl fmt::Display for Kind {
    fn fmt(&self, to: &mut fmt::Formatter<'_>) -> fmt::Result {
        to.write_str(match self {
            Kind::Url => "URL",
            _ => self.word(),
        })
    }
}
