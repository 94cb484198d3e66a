//! Endpoints and sets of them.

use crate::layout::ADDRESSES;

/// A set of endpoints; bit a stands for address a.
#[derive(Debug, Clone, Copy, PartialEq, Eq)]
pub struct EndpointSet(pub u32);

impl EndpointSet {
    /// The set without an endpoint.
    pub const EMPTY: EndpointSet = EndpointSet(0);

    /// The set of one endpoint.
    pub fn of(endpoint: Endpoint) -> EndpointSet {
        EndpointSet(1 << endpoint.0)
    }

    /// Its endpoints that the other set does not have.
    pub fn missing_in(self, other: EndpointSet) -> EndpointSet {
        EndpointSet(self.0 & !other.0)
    }

    /// "Within" means subset: nothing is missing.
    pub fn within(self, other: EndpointSet) -> bool {
        self.missing_in(other).is_empty()
    }

    /// Whether the endpoint is among the set.
    pub fn holds(self, endpoint: Endpoint) -> bool {
        self.0 >> endpoint.0 & 1 == 1
    }

    /// Whether no endpoint is among the set.
    pub fn is_empty(self) -> bool {
        self == EndpointSet::EMPTY
    }

    /// The lowest of its endpoints, if it has any.
    pub fn lowest(self) -> Option<Endpoint> {
        let mut endpoints = (0..ADDRESSES).map(Endpoint);
        endpoints.find(|&endpoint| self.holds(endpoint))
    }
}

/// One endpoint, an address 0 to 31.
#[derive(Debug, Clone, Copy, PartialEq, Eq)]
pub struct Endpoint(pub u32);
