//! The state of a session by name.

use crate::layout::below;
use crate::{Cookies, CONNECTIONS, HOSTS, KEYS, STATE_WORDS};

/// Where the words of a state stand: first the values of cookies, then the keys that are present, then the connections.
const KEYS_AT: usize = HOSTS * KEYS;
const CONNECTIONS_AT: usize = KEYS_AT + HOSTS;

const _: () = assert!(CONNECTIONS_AT + CONNECTIONS == STATE_WORDS);

/// The kinds of a connection's word.
const DOCUMENT: u8 = 1;
const SCRIPT: u8 = 2;
const PICTURE: u8 = 3;

/// What a session has come to: cookies, and what is pending on each connection. A session starts from a state of zeros.
///
/// ```
/// use zolherima::{Cookies, State};
///
/// let state = State::new();
/// assert_eq!((state.cookie(0, 0), state.cookies(0)), (None, Cookies::NONE));
/// assert_eq!(state.pending(0), None);
/// ```
#[derive(Clone, Debug, PartialEq, Eq, Hash)]
pub struct State {
    words: [u32; STATE_WORDS],
}

/// What is pending on a connection.
#[derive(Clone, Copy, Debug, PartialEq, Eq, Hash)]
pub struct Pending {
    /// What is awaited.
    pub kind: PendingKind,
    /// The URL from which it is awaited.
    pub url: u8,
}

/// What a connection awaits.
#[derive(Clone, Copy, Debug, PartialEq, Eq, Hash)]
pub enum PendingKind {
    /// A document.
    Document,
    /// A value, for a script.
    Script {
        /// The URL of the page whose script asked.
        origin: u8,
        /// The script that runs when it comes.
        handler: u8,
    },
    /// A picture.
    Picture,
}

impl State {
    /// The state of zeros, from which a session starts.
    pub const fn new() -> State {
        State {
            words: [0; STATE_WORDS],
        }
    }

    /// The state of these words, which [`feed`](crate::feed) refuses where it is not sound.
    pub const fn from_words(words: [u32; STATE_WORDS]) -> State {
        State { words }
    }

    /// Its words, as [`feed`](crate::feed) takes them.
    pub const fn words(&self) -> &[u32; STATE_WORDS] {
        &self.words
    }

    /// Its words, for [`feed`](crate::feed) to change.
    pub fn words_mut(&mut self) -> &mut [u32; STATE_WORDS] {
        &mut self.words
    }

    /// The value of a host's cookie; None where it is not present, the host is above 15 or the key above 7.
    pub fn cookie(&self, host: u32, key: u32) -> Option<u32> {
        let host = below(host, HOSTS)?;
        let key = below(key, KEYS)?;
        let is_present = self.words[KEYS_AT + host] >> key & 1 == 1;
        is_present.then_some(self.words[KEYS * host + key])
    }

    /// The cookies of a host that are present. A host above 15 has none.
    pub fn cookies(&self, host: u32) -> Cookies {
        let with = |cookies: Cookies, key| {
            let value = self.cookie(host, key)?;
            cookies.with(key, value)
        };
        (0..KEYS as u32).fold(Cookies::NONE, |cookies, key| {
            with(cookies, key).unwrap_or(cookies)
        })
    }

    /// What is pending on a connection; None where it is free, or above 31.
    pub fn pending(&self, connection: u32) -> Option<Pending> {
        let word = self.words[CONNECTIONS_AT + below(connection, CONNECTIONS)?];
        let [kind, origin, handler, url] = word.to_be_bytes();
        let kind = match kind {
            DOCUMENT => PendingKind::Document,
            SCRIPT => PendingKind::Script { origin, handler },
            PICTURE => PendingKind::Picture,
            _ => return None,
        };
        Some(Pending { kind, url })
    }
}

impl Default for State {
    fn default() -> State {
        State::new()
    }
}
