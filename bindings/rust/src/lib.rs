//! A session monitor whose code is proved, for programs in Rust.
//!
//! The monitor stands between a web page and the network. It is fed one record at a time, keeps cookies and pending connections in a
//! state that the caller lends, runs small scripts, and writes the requests that may go out. It has no memory of its own, allocates
//! nothing, and answers every content and every length. What is proved is in `libmonitor.a`, which is looked for in the folder that the environment
//! variable `MONITOR_LIB_DIR` names as this crate is built, or else where `tools/static-libraries` leaves it.
//!
//! A [`PolicyBuilder`] makes a policy, and a [`Session`] feeds records under it:
//!
//! ```
//! use zolherima::{Connection, Cookies, Endpoint, Endpoints, Labels, PolicyBuilder, Record, Refusal, RequestKind, Scripts, Session, Url};
//!
//! # fn main() -> Result<(), Box<dyn std::error::Error>> {
//! // The canteen is https at host 0. It may learn of its page, and so may who sees on the wire that something goes to host 0.
//! let canteen = Endpoint::https(0).ok_or("no such host")?;
//! let readers = Endpoints::from_iter([canteen, canteen.event()]);
//! // It alone may have shaped its page, its cookie and what comes on its connection.
//! let writers = Endpoints::only(canteen);
//! let policy = PolicyBuilder::new()
//!     .url(0, Url { address: canteen, is_entry: false, readers, writers })
//!     .cookie(0, 0, Labels { readers: canteen.into(), writers })
//!     .connection(0, Connection { readers, script_readers: readers, writers })
//!     .build()?;
//! let scripts = Scripts::new();
//! let mut session = Session::new(&policy, &scripts);
//!
//! // A page asks for URL 0 on connection 0: a request goes out.
//! let sent = session.feed(&Record::load(0, 0))?;
//! for request in sent.requests {
//!     let request = request?;
//!     assert_eq!((request.kind, request.url, request.connection), (RequestKind::Document, 0, 0));
//! }
//!
//! // The response brings 7 for key 0, and runs script 0, which ends at its first step. The next request carries the cookie.
//! let cookies = Cookies::NONE.with(0, 7).ok_or("no such key")?;
//! let sent = session.feed(&Record::document_response(0, 0, &cookies, 0))?;
//! assert_eq!((sent.steps, sent.requests.count()), (1, 0));
//! assert_eq!(session.state().cookie(0, 0), Some(7));
//! let mut sent = session.feed(&Record::load(0, 0))?;
//! assert_eq!(sent.requests.next().ok_or("no request")??.cookies, cookies);
//!
//! // URL 1 is not in the policy: the record is refused, and nothing changes.
//! let unknown = session.feed(&Record::load(1, 0));
//! assert_eq!(unknown, Err(Refusal::NameUnknown));
//! assert_eq!(unknown.unwrap_err().number(), 6);
//! # Ok(())
//! # }
//! ```
//!
//! # A policy that is not well formed
//!
//! It is not built: [`PolicyBuilder::build`] and [`Policy::from_words`] tell the first [`Fault`], and [`faults`] tells all of them. So a [`Policy`]
//! never gets [`Refusal::PolicyBad`].
//!
//! # What a policy lacks
//!
//! Where readers or writers forbid a record, the refusal tells which endpoint is missing. An endpoint is http or https at a host. If the record
//! should be accepted, the endpoint is to be added to a set of the policy, or taken from another: which sets these are is listed, condition by
//! condition, at [`Refusal::ReadersForbid`] and [`Refusal::WritersForbid`]. The first condition that fails is told of, and of several endpoints that
//! are missing in it the lowest: once that is put right, another may be told. URL and target are those that are asked for, which is the partner
//! where the record names a URL that has one.
//!
//! ```
//! # use zolherima::{Connection, Endpoint, Endpoints, Fault, PolicyBuilder, Record, Scripts, Session, Url};
//! use zolherima::{Refusal, Scheme};
//!
//! // URL 0 is https at host 1; who sees host 1 on the wire may learn of it. Connection 0 has nobody as a writer.
//! let address = Endpoint::https(1).unwrap();
//! let readers = Endpoints::only(address.event());
//! let mut connection = Connection { readers, script_readers: readers, writers: Endpoints::NOBODY };
//! let mut builder = PolicyBuilder::new();
//! builder.url(0, Url { address, is_entry: false, readers, writers: Endpoints::NOBODY });
//! let (policy, scripts) = (builder.connection(0, connection).build()?, Scripts::new());
//!
//! let mut session = Session::new(&policy, &scripts);
//! let load = session.feed(&Record::load(0, 0));
//! let Err(refusal @ Refusal::WritersForbid { missing }) = load else { panic!("{load:?}") };
//! assert_eq!((missing.number(), missing.scheme(), missing.host()), (17, Scheme::Https, 1));
//! assert!(refusal.to_string().ends_with(": https at host 1 is missing"));
//!
//! // The connection's writers lack the URL's own address: it is added to them, and a session begins under the new policy.
//! connection.writers = connection.writers | missing.into();
//! let policy = builder.connection(0, connection).build()?;
//! assert!(Session::new(&policy, &scripts).feed(&Record::load(0, 0)).is_ok());
//! # Ok::<(), Fault>(())
//! ```
//!
//! # Secrecy and integrity
//!
//! What the monitor promises of secrecy and integrity it promises for a session as a whole: from a state of zeros on, the same policy and
//! the same script table throughout, and a state that nobody else writes between calls. Secrecy: what has none of a set of endpoints
//! among its readers does not show to that set, in requests and state. Integrity: what has some of a set among its writers does not reach
//! the requests to URLs that have none of it among theirs and are no entries; it neither causes, changes nor prevents one. What [`feed`]
//! answers is for the caller alone: it may depend on what others must not learn.
//!
//! # Words and bytes
//!
//! All of this is made of [`feed`], which is lent buffers of words and bytes. A session starts from a state of zeros, and each record is fed with the
//! state as the last call left it:
//!
//! ```
//! use zolherima::{feed, Accepted, NO_PARTNER, NO_URL, OUT_BYTES, POLICY_WORDS, SCRIPT_BYTES, STATE_WORDS};
//!
//! // One URL, https at host 0 (endpoint 16). Who sees host 0 on the wire (endpoint 0) may learn of it; it may be shaped by itself.
//! let mut policy = [0; POLICY_WORDS];
//! for url in policy[..192].chunks_exact_mut(3) {
//!     url.copy_from_slice(&NO_URL);
//! }
//! policy[..3].copy_from_slice(&[16, 0x0001_0001, 0x0001_0000]);
//! // Connection 0: readers, readers of its scripts, writers.
//! policy[448..451].copy_from_slice(&[0x0001_0001, 0x0001_0001, 0x0001_0000]);
//! // No host is listed as always https, so no URL has a partner.
//! policy[545..].fill(NO_PARTNER);
//! let scripts = [0; SCRIPT_BYTES];
//!
//! let mut state = [0; STATE_WORDS];
//! let mut out = [0; OUT_BYTES];
//! let load = feed(&policy, &scripts, &mut state, &[0x03, 0, 0], &mut out);
//! assert_eq!(load, Ok(Accepted { bytes: 3, steps: 0 }));
//! assert_eq!(out[..3], [0x03, 0, 0]);
//! ```
//!
//! The buffers:
//!
//! | Buffer | Length | What |
//! |---|---|---|
//! | policy | [`POLICY_WORDS`] | words 0 to 191: 64 URLs of address ([`ENTRY`] more for an entry), readers, writers ([`NO_URL`] where there is none); 192 to 447: readers and writers of the cookie of host h and key k, at 192 + 2 (8 h + k); 448 to 543: 32 connections of readers, script readers, writers; 544: the hosts that are always https, bit h for host h; 545 to 608: the partner of each URL, by https at its host, for URLs by http at such a host, and [`NO_PARTNER`] for all others |
//! | script table | [`SCRIPT_BYTES`] | 16 scripts of 32 steps of 4 bytes: op, a, b, c |
//! | state | [`STATE_WORDS`] | words 0 to 127: the values of cookies, at 8 h + k; 128 to 143: for each host, the keys present as bits 0 to 7; 144 to 175: connections, 0 where free, else kind << 24 \| origin << 16 \| handler << 8 \| URL, where kind is 1 for a document, 2 for a script's request and 3 for a picture (origin and handler 0 but for a script's request) |
//! | output | [`OUT_BYTES`] or more | requests, one right after another |
//!
//! An address is an endpoint, 0 to 31: http at host a for a below 16, https at host a - 16 from there on. A set of endpoints is a
//! word whose bit a stands for endpoint a. Where a load, a redirect or a script asks for a URL that has a partner, the partner is asked
//! for in its place, so that no request goes by http to a host that is always https. Records, requests and scripts are described in
//! `include/monitor.h`.
//!
//! # The tally of requests
//!
//! With the feature `usage`, the module `usage` counts the requests that were written, by URL. It needs `libusage.a` beside `libmonitor.a`.
//!
//! # Set-Cookie lines
//!
//! With the feature `cookie`, the module `cookie` reads a Set-Cookie line: which cookie it sets, to which value, and who may read it, as the word of
//! a policy. It needs `libcookie.a` beside `libmonitor.a`.
//!
//! # Journeys
//!
//! With the feature `journeys`, the module `journeys` finds the connection of a policy on which URLs can be visited one after another: the first
//! loaded, each further one reached by a redirect; and tells where and why another does not do. It needs `libjourneys.a` beside `libmonitor.a`.
//!
//! # The reach table
//!
//! With the feature `reach_table`, the module `reach_table` counts how many URLs of a policy each connection reaches. It needs `libreach_table.a`
//! beside `libmonitor.a`.

#![no_std]
#![warn(missing_docs)]

#[cfg(feature = "cookie")]
pub mod cookie;
mod cookies;
mod endpoint;
mod endpoints;
mod fault;
mod fields;
#[cfg(feature = "journeys")]
pub mod journeys;
mod layout;
mod policy;
mod policy_builder;
#[cfg(feature = "reach_table")]
pub mod reach_table;
mod record;
mod request;
mod said;
mod script;
mod session;
mod state;
mod step;
#[cfg(feature = "usage")]
pub mod usage;
mod well_formed;

use core::fmt;

pub use cookies::Cookies;
pub use endpoint::{Endpoint, Scheme};
pub use endpoints::Endpoints;
pub use fault::{Fault, Named};
pub use policy::{Connection, Labels, Policy, Url};
pub use policy_builder::PolicyBuilder;
pub use record::Record;
pub use request::{requests, Request, RequestBad, RequestFault, RequestKind, Requests};
pub use said::{RecordKind, Said};
pub use script::Scripts;
pub use session::{Sent, Session};
pub use state::{Pending, PendingKind, State};
pub use step::Step;
pub use well_formed::faults;

/// Words of a policy.
pub const POLICY_WORDS: usize = 609;
/// Bytes of a script table.
pub const SCRIPT_BYTES: usize = 2048;
/// Words of a state.
pub const STATE_WORDS: usize = 176;
/// The least length of an output: room for 32 requests, the most that one record can send.
pub const OUT_BYTES: usize = 1184;
/// The longest record that is not malformed.
pub const LONGEST_RECORD: usize = 40;
/// The longest request.
pub const LONGEST_REQUEST: usize = 37;
/// Hosts are below this.
pub const HOSTS: usize = 16;
/// The keys of a host's cookies are below this.
pub const KEYS: usize = 8;
/// URLs are below this.
pub const URLS: usize = 64;
/// Connections are below this.
pub const CONNECTIONS: usize = 32;
/// Scripts are below this.
pub const SCRIPTS: usize = 16;
/// The places of a script's steps are below this.
pub const STEPS: usize = 32;
/// Bytes of a step.
pub const STEP_BYTES: usize = 4;
/// The registers of a script are below this.
pub const REGISTERS: usize = 4;
/// The three words of a policy's URL that is not in use.
pub const NO_URL: [u32; 3] = [255, 0, 0];
/// The partner, in a policy, of a URL that has none, and of a row that is not in use.
pub const NO_PARTNER: u32 = 255;
/// What is added to the address of a URL, in a policy, to make it an entry: a front page that anyone may link to.
///
/// A redirect to an entry, or a script's request, may come from writers that the entry does not have: that alone is not asked of it. Its readers
/// and its event endpoint decide as of any URL, its address must be among the writers of the connection on which it is asked for, and the script's
/// writers within these. A load asks for no writers of any URL. Where the URL that is named has a partner, the partner decides whether it is an
/// entry. An entry by http at a host that is always https needs a partner as any URL does, which may be an entry or not.
///
/// ```
/// use zolherima::ENTRY;
///
/// // Address, readers and writers: https at host 0, of which everyone may learn, which it alone writes, and to which anyone may link.
/// let front_page = [ENTRY + 16, u32::MAX, 0x0001_0000];
/// # assert_eq!(front_page[0], 48);
/// ```
pub const ENTRY: u32 = 32;

/// What a record did that [`feed`] accepted.
#[derive(Clone, Copy, Debug, PartialEq, Eq, Hash)]
pub struct Accepted {
    /// How many bytes of the output were written, from its start: whole requests.
    pub bytes: usize,
    /// How many steps of a script ran, the one that ended it included; 0 where no script ran.
    pub steps: u32,
}

// One list of the refusals: for each its name, its number and its words, and `Endpoint` where it tells which one is missing. A number can come or
// go without a change elsewhere.
macro_rules! refusals {
    ($($(#[$doc:meta])* $name:ident = $number:literal, $words:literal $(, $endpoint:ident)?;)*) => {
        /// Why a record was refused: the first of these that applies.
        #[derive(Clone, Copy, Debug, PartialEq, Eq, Hash)]
        pub enum Refusal {
            $($(#[$doc])* $name $({
                /// The endpoint that is missing.
                missing: $endpoint,
            })?,)*
        }

        impl Refusal {
            /// The number and the words of every refusal, in the order in which they are asked.
            pub const LIST: &'static [(u32, &'static str)] = &[$(($number, $words)),*];

            /// The number that C programs see.
            pub const fn number(self) -> u32 {
                match self {
                    $(Refusal::$name { .. } => $number,)*
                }
            }

            /// The endpoint that is missing, where readers or writers forbid the record.
            pub const fn missing(self) -> Option<Endpoint> {
                match self {
                    $($(Refusal::$name { missing } => Some::<$endpoint>(missing),)?)*
                    _ => None,
                }
            }

            /// None where the number is unknown, or an endpoint is called for and there is none of this number.
            fn of(number: u32, missing: u32) -> Option<Refusal> {
                match number {
                    $($number => Some(Refusal::$name $({ missing: $endpoint::new(missing)? })?),)*
                    _ => None,
                }
            }

            const fn words(self) -> &'static str {
                match self {
                    $(Refusal::$name { .. } => $words,)*
                }
            }
        }
    };
}

refusals! {
    /// The output has fewer than [`OUT_BYTES`] bytes, however few this record needs.
    OutputShort = 1, "the output is too short";
    /// The policy does not have [`POLICY_WORDS`] words, or is not well formed: a URL whose first word is neither an address nor [`ENTRY`] more
    /// than one, or without its event endpoint (http at its host) among its readers; a connection with script readers that are not among its
    /// readers; a host above 15 listed as always https; or a partner that is missing, wrong, or not called for.
    PolicyBad = 2, "the policy has the wrong length or is not well formed";
    /// The script table does not have [`SCRIPT_BYTES`] bytes.
    ScriptsBad = 3, "the script table has the wrong length";
    /// The state does not have [`STATE_WORDS`] words, or is not sound: a value of a cookie that is not present, a key above 7, or a
    /// connection whose word is not as in the table of buffers, names a URL that the policy does not have, or does not fit its URL. A
    /// state of zeros is sound, and a state that is sound under a policy stays sound under it, whatever is fed.
    StateUnsound = 4, "the state has the wrong length or is not sound";
    /// The record is malformed, of an unknown kind: it is empty, or its map byte is none of those that are fed, as from a newer sender.
    KindUnknown = 10, "the record is of an unknown kind";
    /// The record is malformed, with an empty key map: its map byte says that cookies follow, and the key map byte is there and 0, whatever
    /// the length.
    KeyMapEmpty = 12, "the record's key map is empty";
    /// The record is malformed, cut or too long: it does not have the length that its map byte and key map call for, as a torn line; also
    /// where it ends before its key map byte.
    CutOrTooLong = 11, "the record is cut or too long";
    /// The record names a URL or target that the policy does not have, a connection above 31 or a script above 15.
    NameUnknown = 6, "the record names a URL, connection or script that there is not";
    /// A response or redirect on a connection that is free or holds another URL, or a response of another kind than the connection.
    NotAwaited = 7, "the connection does not await this record";
    /// Readers forbid it, which are those who may learn of something. The first of these that applies, and what can be done about the missing
    /// endpoint:
    ///
    /// - A load's connection has a reader that the URL lacks: add it to the readers of the URL, or take it from those of the connection, and from
    ///   its script readers.
    /// - A redirect's connection lacks the event endpoint of the target, http at its host, as a reader: add it to the readers of the connection.
    /// - A redirect's connection has a reader that the target lacks: likewise, with the target for the URL.
    ReadersForbid = 8, "the readers of the connection and the URL forbid it", Endpoint;
    /// Writers forbid it, which are those who may have shaped something. The first of these that applies, and what can be done about the missing
    /// endpoint:
    ///
    /// - A load's connection lacks the URL's address as a writer: add it to the writers of the connection.
    /// - A redirect's connection lacks the target's address as a writer: the same.
    /// - A redirect's connection has a writer that the target lacks, and the target is no entry: add it to the writers of the target, take it from
    ///   those of the connection, or make the target an [entry](ENTRY).
    WritersForbid = 9, "the writers of the connection and the URL forbid it", Endpoint;
}

impl fmt::Display for Refusal {
    fn fmt(&self, to: &mut fmt::Formatter<'_>) -> fmt::Result {
        to.write_str(self.words())?;
        match self.missing() {
            Some(endpoint) => write!(to, ": {endpoint} is missing"),
            None => Ok(()),
        }
    }
}

impl core::error::Error for Refusal {}

/// Feeds one record to the session whose state is lent.
///
/// Any contents and any lengths are allowed: whatever does not fit is refused. State and output change only where the record is accepted,
/// and of the output only the first [`Accepted::bytes`] bytes; a refusal changes nothing.
///
/// # Panics
///
/// Where the library answers a number that is none of [`Refusal`], or for one that has a missing endpoint tells none. By its contract it never
/// does: the `libmonitor.a` that is linked would have to be of another version than this crate. What such a call has changed cannot be said here.
#[inline]
pub fn feed(
    policy: &[u32],
    scripts: &[u8],
    state: &mut [u32],
    record: &[u8],
    out: &mut [u8],
) -> Result<Accepted, Refusal> {
    // SAFETY: each pointer comes from a slice with its length: not null, aligned, and readable, for state and output also writable, for
    // that many elements; the borrows keep everybody else away during the call. This is all that monitor.h asks.
    let answer = unsafe {
        c::monitor_feed(
            policy.as_ptr(),
            policy.len(),
            scripts.as_ptr(),
            scripts.len(),
            state.as_mut_ptr(),
            state.len(),
            record.as_ptr(),
            record.len(),
            out.as_mut_ptr(),
            out.len(),
        )
    };
    match answer.number {
        0 => Ok(Accepted {
            bytes: answer.bytes as usize,
            steps: answer.steps,
        }),
        number => Err(refusal(number, answer.missing)),
    }
}

#[inline]
fn refusal(number: u32, missing: u32) -> Refusal {
    Refusal::of(number, missing)
        .unwrap_or_else(|| unknown("libmonitor.a", format_args!("{number}, missing {missing}")))
}

#[cold]
fn unknown(library: &str, answer: fmt::Arguments<'_>) -> ! {
    panic!("{library} answers {answer}, which this crate does not know: they are of two versions")
}

/// What `include/monitor.h` declares.
mod c {
    #[repr(C)]
    pub struct Answer {
        pub number: u32,
        pub bytes: u32,
        pub steps: u32,
        pub missing: u32,
    }

    extern "C" {
        pub fn monitor_feed(
            policy: *const u32,
            policy_words: usize,
            scripts: *const u8,
            script_bytes: usize,
            state: *mut u32,
            state_words: usize,
            record: *const u8,
            record_bytes: usize,
            out: *mut u8,
            out_bytes: usize,
        ) -> Answer;
    }
}

#[cfg(test)]
mod tests {
    use super::*;

    #[test]
    fn a_number_is_that_of_its_refusal_or_of_none() {
        let is_listed = |number| Refusal::LIST.iter().any(|(of, _)| *of == number);
        for number in (0..1000).chain([u32::MAX]) {
            let known = Refusal::of(number, 17).map(Refusal::number);
            assert_eq!(known, is_listed(number).then_some(number));
        }
    }

    #[test]
    fn an_endpoint_is_called_for_by_two_numbers_alone() {
        for &(number, _) in Refusal::LIST {
            for missing in (0..40).chain([u32::MAX]) {
                let endpoint = Endpoint::new(missing).filter(|_| [8, 9].contains(&number));
                let refusal = Refusal::of(number, missing);
                assert_eq!(refusal.and_then(Refusal::missing), endpoint);
                let is_told = endpoint.is_some() || ![8, 9].contains(&number);
                assert_eq!(refusal.is_some(), is_told, "{number}, {missing}");
            }
        }
    }

    #[test]
    #[should_panic(expected = "libmonitor.a answers 1000, missing 32, which this crate")]
    fn a_number_that_is_not_known_is_told() {
        refusal(1000, 32);
    }

    #[test]
    #[should_panic(expected = "libmonitor.a answers 8, missing 32, which this crate")]
    fn an_endpoint_that_there_is_not_is_told() {
        refusal(8, 32);
    }
}
