//! Sets of endpoints: who may learn of something, or may have shaped it.

use core::ops::BitOr;

use crate::Endpoint;

/// A set of endpoints: one word of a policy, whose bit a stands for endpoint a.
///
/// ```
/// use zolherima::{Endpoint, Endpoints};
///
/// let canteen = Endpoint::https(0).unwrap();
/// let bank = Endpoint::https(1).unwrap();
/// let both = Endpoints::only(canteen) | bank.into();
/// assert_eq!(both.bits(), 0x0003_0000);
/// assert!(both.has(bank) && !both.has(bank.event()));
/// assert!(Endpoints::only(canteen).is_within(both));
/// assert_eq!(both.except(canteen.into()).lowest(), Some(bank));
/// assert!(both.iter().eq([canteen, bank]));
/// ```
#[derive(Clone, Copy, Debug, Default, PartialEq, Eq, Hash)]
pub struct Endpoints {
    bits: u32,
}

impl Endpoints {
    /// The empty set.
    pub const NOBODY: Endpoints = Endpoints { bits: 0 };
    /// The set that has all 32 endpoints.
    pub const EVERYONE: Endpoints = Endpoints { bits: u32::MAX };

    /// The set that a word of a policy stands for. Every word stands for one.
    pub const fn from_bits(bits: u32) -> Endpoints {
        Endpoints { bits }
    }

    /// The word that stands for this set in a policy.
    pub const fn bits(self) -> u32 {
        self.bits
    }

    /// The set that has this endpoint and no other.
    pub const fn only(endpoint: Endpoint) -> Endpoints {
        Endpoints {
            bits: 1 << endpoint.number(),
        }
    }

    /// Whether the endpoint is in the set.
    pub const fn has(self, endpoint: Endpoint) -> bool {
        Endpoints::only(endpoint).is_within(self)
    }

    /// The set that has the endpoints of both.
    pub const fn and(self, other: Endpoints) -> Endpoints {
        Endpoints {
            bits: self.bits | other.bits,
        }
    }

    /// The set without the endpoints of another.
    pub const fn except(self, other: Endpoints) -> Endpoints {
        Endpoints {
            bits: self.bits & !other.bits,
        }
    }

    /// Whether each endpoint of this set is in the other.
    pub const fn is_within(self, other: Endpoints) -> bool {
        self.except(other).is_empty()
    }

    /// Whether it has no endpoint.
    pub const fn is_empty(self) -> bool {
        self.bits == 0
    }

    /// The endpoint with the lowest number, if there is one.
    pub const fn lowest(self) -> Option<Endpoint> {
        // the empty set has 32 zeros, and there is no endpoint 32
        Endpoint::new(self.bits.trailing_zeros())
    }

    /// Its endpoints, the lowest first.
    pub fn iter(self) -> impl Iterator<Item = Endpoint> {
        let mut left = self;
        core::iter::from_fn(move || {
            let lowest = left.lowest()?;
            left = left.except(lowest.into());
            Some(lowest)
        })
    }
}

impl From<Endpoint> for Endpoints {
    fn from(endpoint: Endpoint) -> Endpoints {
        Endpoints::only(endpoint)
    }
}

impl BitOr for Endpoints {
    type Output = Endpoints;

    fn bitor(self, other: Endpoints) -> Endpoints {
        self.and(other)
    }
}

impl FromIterator<Endpoint> for Endpoints {
    fn from_iter<I: IntoIterator<Item = Endpoint>>(endpoints: I) -> Endpoints {
        endpoints
            .into_iter()
            .fold(Endpoints::NOBODY, |set, endpoint| set | endpoint.into())
    }
}
