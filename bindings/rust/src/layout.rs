//! Where the words of a policy stand.

use crate::{Endpoint, CONNECTIONS, ENTRY, HOSTS, KEYS, POLICY_WORDS, URLS};

pub(crate) const COOKIES_AT: usize = 3 * URLS;
pub(crate) const CONNECTIONS_AT: usize = COOKIES_AT + 2 * HOSTS * KEYS;
pub(crate) const HTTPS_HOSTS_AT: usize = CONNECTIONS_AT + 3 * CONNECTIONS;
pub(crate) const PARTNERS_AT: usize = HTTPS_HOSTS_AT + 1;

const _: () = assert!(PARTNERS_AT + URLS == POLICY_WORDS);

pub(crate) type Words = [u32; POLICY_WORDS];

/// The number as an index, where it is below the end.
pub(crate) fn below(number: u32, end: usize) -> Option<usize> {
    usize::try_from(number).ok().filter(|index| *index < end)
}

/// Address, readers and writers.
pub(crate) fn url_row(words: &Words, url: usize) -> [u32; 3] {
    let at = 3 * url;
    [words[at], words[at + 1], words[at + 2]]
}

/// Readers, script readers and writers.
pub(crate) fn connection_row(words: &Words, connection: usize) -> [u32; 3] {
    let at = CONNECTIONS_AT + 3 * connection;
    [words[at], words[at + 1], words[at + 2]]
}

/// The address that the first word of a URL says, whether it is an entry or not.
pub(crate) fn address(word: u32) -> Option<Endpoint> {
    if word < ENTRY {
        Endpoint::new(word)
    } else {
        Endpoint::new(word - ENTRY)
    }
}
