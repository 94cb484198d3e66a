//! Set-Cookie lines, with the feature `cookie`: what one of them says of a cookie of a host, as the numbers that a policy and a record take.
//!
//! A line is the text after the colon of a Set-Cookie header, without the end of the header's line. [`import`] is the whole of it:
//!
//! ```
//! use zolherima::cookie::{import, names, Cookie, Refusal};
//!
//! // Of host 1, key 0 is for the cookie `lang` and key 3 for `sid`; keys 1 and 2 have no name, nor have those above.
//! let names = names(&[b"lang", b"", b"", b"sid"]).unwrap();
//!
//! let cookie = import(1, &names, b" sid=7; Path=/; Secure; HttpOnly")?;
//! assert_eq!(cookie, Cookie { key: 3, value: 7, secure: true, http_only: true, readers: 0x0002_0000 });
//!
//! // Without Secure http at host 1 may read it too.
//! assert_eq!(import(1, &names, b"lang=2; Domain=example.com")?.readers, 0x0002_0002);
//!
//! assert_eq!(import(1, &names, b"sid; Secure"), Err(Refusal::NoName));
//! assert_eq!(import(1, &names, b"theme=2"), Err(Refusal::NoKey));
//! assert_eq!(import(1, &names, b"sid=7d"), Err(Refusal::NoNumber));
//!
//! // The readers are a word of the policy. The writers, in the word behind it, are yours to choose.
//! let mut policy = [0; zolherima::POLICY_WORDS];
//! policy[192 + 2 * (8 * 1 + cookie.key as usize)] = cookie.readers;
//! # Ok::<(), Refusal>(())
//! ```
//!
//! # The carriage return
//!
//! It is no blank but a byte like any other. Left on from the end of the header's line, it hides the last attribute: the cookie is read without
//! Secure, so that both endpoints of the host may read it. RFC 6265 reads it so. Take it off before the call.
//!
//! ```
//! # use zolherima::cookie::{import, names};
//! # let names = names(&[b"sid"]).unwrap();
//! assert!(import(0, &names, b"sid=7; Secure").unwrap().secure);
//! assert!(!import(0, &names, b"sid=7; Secure\r").unwrap().secure);
//! ```
//!
//! Nothing is kept between calls and nothing is allocated; the time is in proportion to the length of the line. How a line is read is described in
//! `include/cookie.h`.

use core::fmt;

/// The names of eight keys.
pub const NAMES_BYTES: usize = 128;
/// The most bytes that a name may have.
pub const NAME_BYTES: usize = 16;

/// What a line says.
#[derive(Clone, Copy, Debug, PartialEq, Eq, Hash)]
pub struct Cookie {
    /// The lowest key that has the name, 0 to 7.
    pub key: u32,
    /// The value.
    pub value: u32,
    /// Whether the line has the attribute Secure.
    pub secure: bool,
    /// Whether it has HttpOnly. This is only reported: no word of a policy says it.
    pub http_only: bool,
    /// Who may read the cookie, as the word 192 + 2 (8 h + k) of a policy for host h and key k: https at the host, and without Secure http there
    /// too.
    pub readers: u32,
}

/// Why a line was refused: the first of these that applies.
#[derive(Clone, Copy, Debug, PartialEq, Eq, Hash)]
pub enum Refusal {
    /// The host is above 15.
    HostUnknown = 6,
    /// The pair, which is what stands before the first semicolon, has no equals sign, or nothing but blanks stands before the first one.
    NoName = 14,
    /// The names do not have [`NAMES_BYTES`] bytes, or none of them is the cookie's.
    NoKey = 15,
    /// The value is not one to ten digits that make at most 4,294,967,295.
    NoNumber = 16,
}

impl Refusal {
    /// Every refusal, in the order in which they are asked.
    pub const LIST: [Refusal; 4] = [
        Refusal::HostUnknown,
        Refusal::NoName,
        Refusal::NoKey,
        Refusal::NoNumber,
    ];

    /// The number that C programs see.
    pub const fn number(self) -> u32 {
        self as u32
    }

    fn of(number: u32) -> Option<Refusal> {
        Refusal::LIST
            .into_iter()
            .find(|refusal| refusal.number() == number)
    }
}

impl fmt::Display for Refusal {
    fn fmt(&self, to: &mut fmt::Formatter<'_>) -> fmt::Result {
        to.write_str(match self {
            Refusal::HostUnknown => "the host is above 15",
            Refusal::NoName => "the pair has no equals sign, or no name before it",
            Refusal::NoKey => "the names have the wrong length, or none of them is the cookie's",
            Refusal::NoNumber => "the value is not one to ten digits that make at most 4294967295",
        })
    }
}

impl core::error::Error for Refusal {}

/// The names of keys, from key 0 on, as [`import`] takes them; an empty one, or one that is not there, leaves its key without a name.
///
/// None where there are more than eight, or where one cannot be told: it has more than [`NAME_BYTES`] bytes, or a zero byte, which would end it.
pub fn names(list: &[&[u8]]) -> Option<[u8; NAMES_BYTES]> {
    let mut names = [0; NAMES_BYTES];
    if list.len() > NAMES_BYTES / NAME_BYTES {
        return None;
    }
    for (field, name) in names.chunks_exact_mut(NAME_BYTES).zip(list) {
        if name.contains(&0) {
            return None;
        }
        field.get_mut(..name.len())?.copy_from_slice(name);
    }
    Some(names)
}

/// Reads one line that a host, 0 to 15, sent.
///
/// The names are those of the host's keys, [`NAME_BYTES`] bytes each: a name ends before its first zero byte, or has all of them. They are compared
/// byte for byte, and an empty one is no cookie's; [`names`] makes them. Any contents and any lengths are allowed: whatever does not fit is refused.
///
/// # Panics
///
/// Where the library answers a number that is neither 0 nor one of [`Refusal`]. By its contract it never does: the `libcookie.a` that is linked would
/// have to be of another version than this crate.
#[inline]
pub fn import(host: u32, names: &[u8], text: &[u8]) -> Result<Cookie, Refusal> {
    // SAFETY: each pointer comes from a slice with its length: not null, and readable for that many bytes; the borrows keep everybody from
    // writing them during the call. This is all that cookie.h asks.
    let imported =
        unsafe { c::cookie_import(host, names.as_ptr(), names.len(), text.as_ptr(), text.len()) };
    match imported.number {
        0 => Ok(Cookie {
            key: imported.key,
            value: imported.value,
            secure: imported.secure,
            http_only: imported.http_only,
            readers: imported.readers,
        }),
        number => Err(refusal(number)),
    }
}

#[inline]
fn refusal(number: u32) -> Refusal {
    Refusal::of(number).unwrap_or_else(|| crate::unknown("libcookie.a", format_args!("{number}")))
}

/// What `include/cookie.h` declares.
mod c {
    #[repr(C)]
    pub struct Imported {
        pub number: u32,
        pub key: u32,
        pub value: u32,
        pub secure: bool,
        pub http_only: bool,
        pub readers: u32,
    }

    extern "C" {
        pub fn cookie_import(
            host: u32,
            names: *const u8,
            names_length: usize,
            text: *const u8,
            text_length: usize,
        ) -> Imported;
    }
}

#[cfg(test)]
mod tests {
    use super::*;

    #[test]
    fn a_number_is_that_of_its_refusal_or_of_none() {
        for number in (0..1000).chain([u32::MAX]) {
            let known = [6, 14, 15, 16].contains(&number);
            let refusal = Refusal::of(number).map(Refusal::number);
            assert_eq!(refusal, known.then_some(number));
        }
    }

    #[test]
    #[should_panic(expected = "libcookie.a answers 17, which this crate does not know")]
    fn a_number_that_is_not_known_is_told() {
        refusal(17);
    }
}
