//! Endpoints: what the bits of a policy's sets stand for.

use core::fmt;

/// Hosts are below this.
const HOSTS: u32 = crate::HOSTS as u32;
/// Endpoints are below this: each host has two.
const ENDPOINTS: u32 = 2 * HOSTS;

/// One endpoint: http or https at a host. In a policy it is an address, and bit [`number`](Endpoint::number) of a set stands for it.
///
/// ```
/// use zolherima::{Endpoint, Scheme};
///
/// // Endpoint 17 is https at host 1.
/// let endpoint = Endpoint::new(17).unwrap();
/// assert_eq!((endpoint.scheme(), endpoint.host()), (Scheme::Https, 1));
/// assert_eq!(endpoint.to_string(), "https at host 1");
///
/// // The set that has it and no other endpoint.
/// assert_eq!(1 << endpoint.number(), 0x0002_0000);
///
/// assert_eq!(Endpoint::https(1), Some(endpoint));
/// assert_eq!(endpoint.event().to_string(), "http at host 1");
/// assert_eq!((Endpoint::new(32), Endpoint::http(16)), (None, None));
/// ```
#[derive(Clone, Copy, Debug, PartialEq, Eq, PartialOrd, Ord, Hash)]
pub struct Endpoint {
    number: u32,
}

/// How a host is spoken to.
#[derive(Clone, Copy, Debug, PartialEq, Eq, PartialOrd, Ord, Hash)]
pub enum Scheme {
    /// In the open.
    Http,
    /// Encrypted.
    Https,
}

impl Endpoint {
    /// The endpoint of this number, 0 to 31: below 16 http at the host of the number, from there on https at the host of 16 less.
    pub const fn new(number: u32) -> Option<Endpoint> {
        if number < ENDPOINTS {
            Some(Endpoint { number })
        } else {
            None
        }
    }

    /// http at the host, 0 to 15.
    pub const fn http(host: u32) -> Option<Endpoint> {
        if host < HOSTS {
            Endpoint::new(host)
        } else {
            None
        }
    }

    /// https at the host, 0 to 15.
    pub const fn https(host: u32) -> Option<Endpoint> {
        if host < HOSTS {
            Endpoint::new(HOSTS + host)
        } else {
            None
        }
    }

    /// The event endpoint of a URL at this address: http at its host, which is whoever sees that a message goes there.
    pub const fn event(self) -> Endpoint {
        Endpoint {
            number: self.host(),
        }
    }

    /// Its number, 0 to 31: the address in a policy, and the bit of a set.
    pub const fn number(self) -> u32 {
        self.number
    }

    /// The host, 0 to 15.
    pub const fn host(self) -> u32 {
        self.number % HOSTS
    }

    /// http or https.
    pub const fn scheme(self) -> Scheme {
        if self.number < HOSTS {
            Scheme::Http
        } else {
            Scheme::Https
        }
    }
}

impl fmt::Display for Endpoint {
    fn fmt(&self, to: &mut fmt::Formatter<'_>) -> fmt::Result {
        write!(to, "{} at host {}", self.scheme(), self.host())
    }
}

impl fmt::Display for Scheme {
    fn fmt(&self, to: &mut fmt::Formatter<'_>) -> fmt::Result {
        to.write_str(match self {
            Scheme::Http => "http",
            Scheme::Https => "https",
        })
    }
}
