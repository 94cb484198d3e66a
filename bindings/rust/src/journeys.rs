//! Journeys, with the feature `journeys`: the lowest connection of a policy on which a list of URLs can be visited, each reached from the one before;
//! and where and why a connection stops on the way.
//!
//! A journey is one to [`MOST_URLS`] URLs, each its number in the policy: the first is loaded, and each further one is reached by a redirect from
//! the one before, all on the same connection. [`find`] tells the connection for it, and [`stop`] why another does not do:
//!
//! ```
//! use zolherima::journeys::{find, stop, Lacking, Refusal, Stop};
//! use zolherima::{Endpoint, NO_PARTNER, NO_URL, POLICY_WORDS};
//!
//! // URL 0 is a canteen and URL 1 a bank, by https at host 0 and host 1 (endpoints 16 and 17). Who sees either host on the wire may learn of both,
//! // and both may be shaped by each other.
//! const CANTEEN: u8 = 0;
//! const BANK: u8 = 1;
//! let mut policy = [0; POLICY_WORDS];
//! for url in policy[..192].chunks_exact_mut(3) {
//!     url.copy_from_slice(&NO_URL);
//! }
//! policy[..3].copy_from_slice(&[16, 0x0003_0003, 0x0003_0000]);
//! policy[3..6].copy_from_slice(&[17, 0x0003_0003, 0x0003_0000]);
//! policy[545..].fill(NO_PARTNER);
//! // Connection 4 is the canteen's alone. Connection 7 may be seen at both hosts, and both write on it.
//! policy[448 + 3 * 4..][..3].copy_from_slice(&[0x0000_0001, 0x0000_0001, 0x0001_0000]);
//! policy[448 + 3 * 7..][..3].copy_from_slice(&[0x0000_0003, 0x0000_0003, 0x0003_0000]);
//!
//! // The canteen is loaded on either. To the bank and back there is only connection 7.
//! assert_eq!(find(&policy, &[CANTEEN]), Ok(Some(4)));
//! assert_eq!(find(&policy, &[CANTEEN, BANK, CANTEEN]), Ok(Some(7)));
//! assert_eq!(stop(&policy, &[CANTEEN, BANK, CANTEEN], 7), Ok(None));
//!
//! // Without the bank as a writer of that connection there is none, which is no refusal. It stops at the bank, the second URL.
//! policy[448 + 3 * 7 + 2] = 0x0001_0000;
//! assert_eq!(find(&policy, &[CANTEEN, BANK, CANTEEN]), Ok(None));
//! let bank = Endpoint::new(17).unwrap();
//! let expected = Stop {
//!     place: 1,
//!     refusal: zolherima::Refusal::WritersForbid { missing: bank },
//!     lacking: Lacking::Connection(7),
//! };
//! assert_eq!(stop(&policy, &[CANTEEN, BANK, CANTEEN], 7), Ok(Some(expected)));
//!
//! assert_eq!(find(&policy, &[CANTEEN, 2]), Err(Refusal::Journey));
//! assert_eq!(stop(&policy, &[CANTEEN], 32), Err(Refusal::Connection));
//! assert_eq!(find(&policy[1..], &[CANTEEN]), Err(Refusal::Policy));
//! ```
//!
//! # Which connection carries a journey
//!
//! One on which labels forbid none of it: neither [`ReadersForbid`](crate::Refusal::ReadersForbid) nor
//! [`WritersForbid`](crate::Refusal::WritersForbid) applies to a load of the first URL, or to a redirect to any further one. As in the monitor, a URL
//! that has a partner is replaced by it before anything is asked, and an [entry](crate::ENTRY) may be reached from writers that it does not have.
//! Cookies, scripts and what is pending have no part in it.
//!
//! So [`feed`](crate::feed) takes the journey on the connection that is told: from a state of zeros it accepts the load and then each redirect
//! without cookies. This is proved, and that no lower connection carries the journey. A redirect's record names the URL that the connection then
//! holds, which is the one before, or its partner where it has one. And on a connection that stops `feed` accepts what is before the stop, and
//! answers there what is told; this is proved too, and that the set that is told lacks the endpoint.
//!
//! Nothing is kept between calls and nothing is allocated. What else there is to say is in `include/journeys.h`.

use core::fmt;

/// The most URLs that a journey may have.
pub const MOST_URLS: usize = 16;

/// What the library tells in place of a connection where there is none.
const NO_CONNECTION: u32 = 32;

/// Why a journey was refused: the first of these that applies.
#[derive(Clone, Copy, Debug, PartialEq, Eq, Hash)]
pub enum Refusal {
    /// The policy does not have [`POLICY_WORDS`](crate::POLICY_WORDS) words, or is not well formed: just where [`feed`](crate::feed) answers
    /// [`PolicyBad`](crate::Refusal::PolicyBad), given a long output.
    Policy = 2,
    /// The journey is empty, has more than [`MOST_URLS`] URLs, or names one that the policy does not have: a number above 63, or a row that is
    /// not in use. The numbers are asked about as they are given, before any is replaced by its partner.
    Journey = 17,
    /// The connection is above 31. [`stop`] alone answers it.
    Connection = 6,
}

impl Refusal {
    /// Every refusal, in the order in which they are asked.
    pub const LIST: [Refusal; 3] = [Refusal::Policy, Refusal::Journey, Refusal::Connection];

    /// The number that C programs see.
    pub const fn number(self) -> u32 {
        self as u32
    }

    fn of(number: u32) -> Option<Refusal> {
        Refusal::LIST
            .into_iter()
            .find(|refusal| refusal.number() == number)
    }
}

impl fmt::Display for Refusal {
    fn fmt(&self, to: &mut fmt::Formatter<'_>) -> fmt::Result {
        to.write_str(match self {
            Refusal::Policy => "the policy has the wrong length or is not well formed",
            Refusal::Journey => "the journey is empty, too long, or names a URL that there is not",
            Refusal::Connection => "there is no such connection",
        })
    }
}

impl core::error::Error for Refusal {}

/// Finds the lowest connection that carries a journey, 0 to 31; none where each of the 32 fails on some URL of it.
///
/// Any contents and any lengths are allowed: whatever does not fit is refused.
///
/// # Panics
///
/// Where the library answers a number that is neither 0 nor one of [`Refusal`], or a connection that there is not. By its contract it never does: the
/// `libjourneys.a` that is linked would have to be of another version than this crate.
#[inline]
pub fn find(policy: &[u32], urls: &[u8]) -> Result<Option<u32>, Refusal> {
    // SAFETY: each pointer comes from a slice with its length: not null, aligned, and readable for that many elements; the borrows keep everybody
    // from writing them during the call. This is all that journeys.h asks.
    let found =
        unsafe { c::journey_find(policy.as_ptr(), policy.len(), urls.as_ptr(), urls.len()) };
    answer(found.number, found.connection)
}

#[inline]
fn answer(number: u32, connection: u32) -> Result<Option<u32>, Refusal> {
    match (number, connection) {
        (0, 0..NO_CONNECTION) => Ok(Some(connection)),
        (0, NO_CONNECTION) => Ok(None),
        _ => Err(refusal(number, connection)),
    }
}

#[inline]
fn refusal(number: u32, connection: u32) -> Refusal {
    Refusal::of(number).unwrap_or_else(|| {
        crate::unknown(
            "libjourneys.a",
            format_args!("{number}, connection {connection}"),
        )
    })
}

/// Where and why a connection stops on a journey.
#[derive(Clone, Copy, Debug, PartialEq, Eq, Hash)]
pub struct Stop {
    /// The first URL that the connection does not take, by its place in the journey, from 0 on.
    pub place: u32,
    /// What [`feed`](crate::feed) answers there: [`ReadersForbid`](crate::Refusal::ReadersForbid) or
    /// [`WritersForbid`](crate::Refusal::WritersForbid), with the missing endpoint.
    pub refusal: crate::Refusal,
    /// Whose set lacks the endpoint, of readers or of writers as the refusal says.
    pub lacking: Lacking,
}

/// Whose set lacks an endpoint.
#[derive(Clone, Copy, Debug, PartialEq, Eq, Hash)]
pub enum Lacking {
    /// That of the URL that is asked for: the partner of the one that the journey names, or that one itself. The connection's set has the endpoint.
    Url(u32),
    /// That of the connection. The endpoint is the URL's own: http at its host where readers forbid it, and its address where writers do.
    Connection(u32),
}

/// Tells where and why a connection stops on a journey; nothing where it carries it.
///
/// Any contents, lengths and numbers are allowed: whatever does not fit is refused.
///
/// # Panics
///
/// Where the library answers something that is none of these. By its contract it never does: the `libjourneys.a` that is linked would have to be of
/// another version than this crate.
#[inline]
pub fn stop(policy: &[u32], urls: &[u8], connection: u32) -> Result<Option<Stop>, Refusal> {
    // SAFETY: as in `find`.
    let stop = unsafe {
        c::journey_stop(
            policy.as_ptr(),
            policy.len(),
            urls.as_ptr(),
            urls.len(),
            connection,
        )
    };
    stopped(&stop, connection).unwrap_or_else(|| unknown_stop(&stop))
}

/// None where the answer is not known.
#[inline]
fn stopped(stop: &c::Stop, connection: u32) -> Option<Result<Option<Stop>, Refusal>> {
    match (stop.number, stop.refusal) {
        (0, 0) => Some(Ok(None)),
        (0, _) => Some(Ok(Some(stop_of(stop, connection)?))),
        (number, _) => Some(Err(Refusal::of(number)?)),
    }
}

#[inline]
fn stop_of(stop: &c::Stop, connection: u32) -> Option<Stop> {
    let refusal = crate::Refusal::of(stop.refusal, stop.missing)?;
    refusal.missing()?;
    Some(Stop {
        place: stop.place,
        refusal,
        lacking: match stop.of_url {
            0 => Lacking::Connection(connection),
            1 => Lacking::Url(stop.url),
            _ => return None,
        },
    })
}

#[cold]
fn unknown_stop(stop: &c::Stop) -> ! {
    crate::unknown("libjourneys.a", format_args!("{stop:?}"))
}

/// What `include/journeys.h` declares.
mod c {
    #[repr(C)]
    pub struct Found {
        pub number: u32,
        pub connection: u32,
    }

    #[derive(Clone, Copy, Debug)]
    #[repr(C)]
    pub struct Stop {
        pub number: u32,
        pub place: u32,
        pub refusal: u32,
        pub missing: u32,
        pub url: u32,
        pub of_url: u32,
    }

    extern "C" {
        pub fn journey_find(
            policy: *const u32,
            policy_length: usize,
            urls: *const u8,
            urls_length: usize,
        ) -> Found;

        pub fn journey_stop(
            policy: *const u32,
            policy_length: usize,
            urls: *const u8,
            urls_length: usize,
            connection: u32,
        ) -> Stop;
    }
}

#[cfg(test)]
mod tests {
    use super::*;

    #[test]
    fn a_number_is_that_of_its_refusal_or_of_none() {
        for number in (0..1000).chain([u32::MAX]) {
            let known = [2, 17, 6].contains(&number);
            let refusal = Refusal::of(number).map(Refusal::number);
            assert_eq!(refusal, known.then_some(number));
        }
    }

    #[test]
    fn a_connection_is_told_or_that_there_is_none() {
        for connection in 0..32 {
            assert_eq!(answer(0, connection), Ok(Some(connection)));
        }
        assert_eq!(answer(0, 32), Ok(None));
        assert_eq!(answer(2, 0), Err(Refusal::Policy));
        assert_eq!(answer(17, 0), Err(Refusal::Journey));
    }

    #[test]
    #[should_panic(expected = "libjourneys.a answers 16, connection 0, which this crate does not")]
    fn a_number_that_is_not_known_is_told() {
        let _ = answer(16, 0);
    }

    #[test]
    #[should_panic(expected = "libjourneys.a answers 0, connection 33, which this crate does not")]
    fn a_connection_that_there_is_not_is_told() {
        let _ = answer(0, 33);
    }
    const STOP: c::Stop = c::Stop {
        number: 0,
        place: 2,
        refusal: 8,
        missing: 17,
        url: 5,
        of_url: 0,
    };

    #[test]
    fn a_stop_has_the_set_of_its_url_or_of_the_connection() {
        let stop = |of_url| stopped(&c::Stop { of_url, ..STOP }, 7).and_then(Result::ok);
        let missing = crate::Endpoint::new(17).unwrap();
        let told = |lacking| {
            Some(Some(Stop {
                place: 2,
                refusal: crate::Refusal::ReadersForbid { missing },
                lacking,
            }))
        };
        assert_eq!(stop(0), told(Lacking::Connection(7)));
        assert_eq!(stop(1), told(Lacking::Url(5)));
        assert_eq!(stop(2), None);
    }

    #[test]
    fn a_stop_is_by_readers_or_writers_and_has_an_endpoint() {
        for refusal in (0..1000).chain([u32::MAX]) {
            for missing in (0..40).chain([u32::MAX]) {
                let stop = c::Stop {
                    refusal,
                    missing,
                    ..STOP
                };
                let told = stopped(&stop, 7).map(|told| told.unwrap().map(|stop| stop.refusal));
                let expected = match refusal {
                    0 => Some(None),
                    8 | 9 => crate::Refusal::of(refusal, missing).map(Some),
                    _ => None,
                };
                assert_eq!(told, expected, "{refusal}, {missing}");
            }
        }
    }

    #[test]
    fn a_stop_that_is_refused_has_its_refusal() {
        for number in (1..1000).chain([u32::MAX]) {
            let told = stopped(&c::Stop { number, ..STOP }, 7).map(Result::unwrap_err);
            assert_eq!(told, Refusal::of(number));
        }
    }

    #[test]
    #[should_panic(expected = "libjourneys.a answers Stop { number: 0, place: 2, refusal: 8, ")]
    fn a_stop_that_is_not_known_is_told() {
        unknown_stop(&STOP);
    }
}
