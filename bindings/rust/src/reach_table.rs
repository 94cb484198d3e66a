//! The reach table of a policy, with the feature `reach_table`: how many URLs each connection reaches, so that one sees how wide a policy is before
//! it goes out.
//!
//! [`count`] gives the counts, and [`fits`] tells of one connection and one URL whether it is counted:
//!
//! ```
//! use zolherima::reach_table::{count, fits};
//! use zolherima::{Connection, Endpoint, Endpoints, PolicyBuilder, Url};
//!
//! # fn main() -> Result<(), Box<dyn std::error::Error>> {
//! // URL 0 is a canteen and URL 1 a bank, by https at host 0 and host 1. Who sees either host on the wire may learn of both.
//! let canteen = Endpoint::https(0).ok_or("no such host")?;
//! let bank = Endpoint::https(1).ok_or("no such host")?;
//! let wires = Endpoints::from_iter([canteen.event(), bank.event()]);
//! let both = Endpoints::from_iter([canteen, bank]);
//! let url = |address| Url { address, is_entry: false, readers: wires | both, writers: both };
//! // Connection 4 is the canteen's alone. Connection 7 may be seen at both hosts, and both write on it.
//! let connection = |readers, writers| Connection { readers, script_readers: readers, writers };
//! let policy = PolicyBuilder::new()
//!     .url(0, url(canteen))
//!     .url(1, url(bank))
//!     .connection(4, connection(canteen.event().into(), canteen.into()))
//!     .connection(7, connection(wires, both))
//!     .build()?;
//!
//! let table = count(policy.words())?;
//! assert_eq!((table.urls[4], table.urls[7], table.all), (1, 2, 3));
//! assert!(fits(policy.words(), 4, 0) && !fits(policy.words(), 4, 1));
//! # Ok(())
//! # }
//! ```
//!
//! # What is counted
//!
//! A connection reaches a URL where it fits it: its readers are within the URL's, and the URL's message endpoint, its address, is among its writers.
//! Counted are the rows of the policy that are in use, each as it stands: a URL by http at a host that is always https is counted by its own labels,
//! though [`feed`](crate::feed) asks for its partner in its place. [Entries](crate::ENTRY) are counted as all others.
//!
//! It is proved that `feed` accepts a load of a URL on a connection, from a state of zeros, just where [`fits`] is true of its partner, or of the
//! URL itself where it has none. It is proved too that each count is the number of URLs for which [`fits`] is true, and `all` their sum; and of two
//! well formed policies, that one URL row moves `all` by at most [`CONNECTIONS`], and one connection by at most [`URLS`].
//!
//! Nothing is kept between calls and nothing is allocated. What else there is to say is in `include/reach_table.h`.

use core::fmt;

/// Connections are below this.
pub const CONNECTIONS: usize = 32;
/// URLs are below this.
pub const URLS: usize = 64;

const _: () = assert!(URLS == crate::URLS && CONNECTIONS == crate::CONNECTIONS);

/// How wide a policy is.
#[derive(Clone, Copy, Debug, PartialEq, Eq)]
pub struct Table {
    /// For each connection, how many URLs it reaches, 0 to [`URLS`].
    pub urls: [u32; CONNECTIONS],
    /// Their sum.
    pub all: u32,
}

const POLICY_BAD: u32 = 2;

/// The policy does not have [`POLICY_WORDS`](crate::POLICY_WORDS) words, or is not well formed: just where [`feed`](crate::feed) answers
/// [`PolicyBad`](crate::Refusal::PolicyBad), given a long output.
#[derive(Clone, Copy, Debug, PartialEq, Eq, Hash)]
pub struct PolicyBad;

impl PolicyBad {
    /// The number that C programs see.
    pub const fn number(self) -> u32 {
        POLICY_BAD
    }
}

impl fmt::Display for PolicyBad {
    fn fmt(&self, to: &mut fmt::Formatter<'_>) -> fmt::Result {
        to.write_str("the policy has the wrong length or is not well formed")
    }
}

impl core::error::Error for PolicyBad {}

/// Counts, for each connection, the URLs that it reaches.
///
/// Any contents and any length are allowed: what is no policy is refused.
///
/// # Panics
///
/// Where the library answers another number than 0 and [`PolicyBad::number`]. By its contract it never does: the `libreach_table.a` that is linked
/// would have to be of another version than this crate.
#[inline]
pub fn count(policy: &[u32]) -> Result<Table, PolicyBad> {
    // SAFETY: the pointer comes from a slice with its length: not null, aligned, and readable for that many words; the borrow keeps everybody from
    // writing them during the call. This is all that reach_table.h asks.
    let table = unsafe { c::reach_count(policy.as_ptr(), policy.len()) };
    answer(table)
}

#[inline]
fn answer(table: c::Table) -> Result<Table, PolicyBad> {
    match table.number {
        0 => Ok(Table {
            urls: table.urls,
            all: table.all,
        }),
        POLICY_BAD => Err(PolicyBad),
        number => crate::unknown("libreach_table.a", format_args!("{number}")),
    }
}

/// Whether the table counts a URL for a connection: true just where the policy is not refused, the connection is below [`CONNECTIONS`], the URL is
/// below [`URLS`] and its row in use, and the connection fits the row as it stands.
///
/// Any numbers, contents and lengths are allowed.
#[inline]
pub fn fits(policy: &[u32], connection: u32, url: u32) -> bool {
    // SAFETY: as in `count`.
    unsafe { c::reach_fits(policy.as_ptr(), policy.len(), connection, url) }
}

/// What `include/reach_table.h` declares.
mod c {
    use super::CONNECTIONS;

    #[repr(C)]
    pub struct Table {
        pub number: u32,
        pub urls: [u32; CONNECTIONS],
        pub all: u32,
    }

    extern "C" {
        pub fn reach_count(policy: *const u32, policy_length: usize) -> Table;
        pub fn reach_fits(
            policy: *const u32,
            policy_length: usize,
            connection: u32,
            url: u32,
        ) -> bool;
    }
}

#[cfg(test)]
mod tests {
    use super::*;

    fn numbered(number: u32) -> c::Table {
        c::Table {
            number,
            urls: [0; CONNECTIONS],
            all: 0,
        }
    }

    #[test]
    fn a_number_is_a_table_or_a_refusal() {
        assert_eq!(answer(numbered(0)).map(|table| table.all), Ok(0));
        assert_eq!(answer(numbered(2)), Err(PolicyBad));
        assert_eq!(PolicyBad.number(), 2);
    }

    #[test]
    #[should_panic(expected = "libreach_table.a answers 17, which this crate does not know")]
    fn a_number_that_is_not_known_is_told() {
        let _ = answer(numbered(17));
    }
}
