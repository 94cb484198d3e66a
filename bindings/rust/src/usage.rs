//! A tally of requests, with the feature `usage`: how many request records a list has for each URL, and how many cookies they carry.
//!
//! A list is request records one right after another, without length bytes: for instance what [`feed`](crate::feed) wrote in a week, joined.
//! It has at most [`LIST_BYTES`] bytes. [`count`] is the whole of it:
//!
//! ```
//! use zolherima::usage::{count, ListBad};
//!
//! let requests = [
//!     0x03, 1, 2, // a document request to URL 1 on connection 2
//!     0x07, 5, 0, 0b101, 0, 0, 0, 7, 0, 0, 0, 9, // and one to URL 5 on connection 0, with a cookie for key 0 and one for key 2
//! ];
//! let tally = count(&requests)?;
//! assert_eq!((tally.records[1], tally.cookies[1]), (1, 0));
//! assert_eq!((tally.records[5], tally.cookies[5]), (1, 2));
//! assert_eq!((tally.all_records, tally.all_cookies), (2, 2));
//!
//! // Without its last byte the list ends within a record.
//! assert_eq!(count(&requests[..14]), Err(ListBad));
//! # Ok::<(), ListBad>(())
//! ```
//!
//! Nothing is kept between calls and nothing is allocated. What a request record is, is described in `include/monitor.h`.

use core::fmt;

/// The most bytes that a list may have.
pub const LIST_BYTES: usize = 65_536;
/// URLs are below this.
pub const URLS: usize = 64;

const _: () = assert!(URLS == crate::URLS);

const LIST_BAD: u32 = 13;

/// What a list of requests has in it.
#[derive(Clone, Copy, Debug, PartialEq, Eq, Hash)]
pub struct Tally {
    /// For each URL, how many records it has.
    pub records: [u32; URLS],
    /// For each URL, how many cookies its records carry, each for itself: a key map of 07 stands for three.
    pub cookies: [u32; URLS],
    /// How many records the whole list has.
    pub all_records: u32,
    /// How many cookies the records of the whole list carry.
    pub all_cookies: u32,
}

/// Nothing was counted: the list has more than [`LIST_BYTES`] bytes; or it is not wholly request records, since a map byte is no request's, a key
/// map is 0 or the last record is cut; or a record has a URL above 63, a connection above 31 or a handler above 15.
#[derive(Clone, Copy, Debug, PartialEq, Eq, Hash)]
pub struct ListBad;

impl ListBad {
    /// The number that C programs see.
    pub const fn number(self) -> u32 {
        LIST_BAD
    }
}

impl fmt::Display for ListBad {
    fn fmt(&self, to: &mut fmt::Formatter<'_>) -> fmt::Result {
        to.write_str("the list is too long, not wholly requests, or has a number out of range")
    }
}

impl core::error::Error for ListBad {}

/// Counts the requests of a list. Any contents and any length are allowed; the empty list has every count 0.
///
/// # Panics
///
/// Where the library answers another number than 0 and [`ListBad::number`]. By its contract it never does: the `libusage.a` that is linked would
/// have to be of another version than this crate.
#[inline]
pub fn count(requests: &[u8]) -> Result<Tally, ListBad> {
    // SAFETY: the pointer comes from a slice with its length: not null, and readable for that many bytes; the borrow keeps everybody from
    // writing them during the call. This is all that usage.h asks.
    let tally = unsafe { c::usage_count(requests.as_ptr(), requests.len()) };
    match tally.number {
        0 => Ok(Tally {
            records: tally.records,
            cookies: tally.cookies,
            all_records: tally.all_records,
            all_cookies: tally.all_cookies,
        }),
        LIST_BAD => Err(ListBad),
        number => crate::unknown("libusage.a", format_args!("{number}")),
    }
}

/// What `include/usage.h` declares.
mod c {
    use super::URLS;

    #[repr(C)]
    pub struct Tally {
        pub number: u32,
        pub records: [u32; URLS],
        pub cookies: [u32; URLS],
        pub all_records: u32,
        pub all_cookies: u32,
    }

    extern "C" {
        pub fn usage_count(requests: *const u8, requests_length: usize) -> Tally;
    }
}
