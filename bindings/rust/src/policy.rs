//! Policies: the rows by name.

use crate::layout::{
    address, below, connection_row, url_row, Words, COOKIES_AT, HTTPS_HOSTS_AT, PARTNERS_AT,
};
use crate::{
    faults, feed, unknown, Endpoint, Endpoints, Fault, Refusal, CONNECTIONS, ENTRY, HOSTS, KEYS,
    NO_PARTNER, OUT_BYTES, POLICY_WORDS, URLS,
};

/// A URL of a policy.
#[derive(Clone, Copy, Debug, PartialEq, Eq, Hash)]
pub struct Url {
    /// Where a message to it goes: its message endpoint.
    pub address: Endpoint,
    /// Whether it is an [entry](ENTRY): a front page that anyone may link to.
    pub is_entry: bool,
    /// Who may learn of it. Its [event endpoint](Endpoint::event) must be among them.
    pub readers: Endpoints,
    /// Who may have shaped a request to it.
    pub writers: Endpoints,
}

/// Who may learn of a cookie, and who may have shaped it.
#[derive(Clone, Copy, Debug, Default, PartialEq, Eq, Hash)]
pub struct Labels {
    /// Who may learn of it.
    pub readers: Endpoints,
    /// Who may have shaped it.
    pub writers: Endpoints,
}

/// A connection of a policy.
#[derive(Clone, Copy, Debug, Default, PartialEq, Eq, Hash)]
pub struct Connection {
    /// Who may learn that something goes on there.
    pub readers: Endpoints,
    /// Who may learn what its scripts do. They must be among the readers.
    pub script_readers: Endpoints,
    /// Who may have shaped what comes on it.
    pub writers: Endpoints,
}

impl Connection {
    /// Whether it fits the URL: its readers are within the URL's, and the URL's address is among its writers.
    ///
    /// A load of a URL is accepted just where its connection fits the URL that is [asked for](Policy::asked_for).
    pub const fn fits(&self, url: &Url) -> bool {
        self.readers.is_within(url.readers) && self.writers.has(url.address)
    }
}

/// A policy that is well formed: the library was asked when it was made.
///
/// It is made by a [`PolicyBuilder`](crate::PolicyBuilder), or of words:
///
/// ```
/// use zolherima::{Fault, Policy, PolicyBuilder, POLICY_WORDS};
///
/// let policy = PolicyBuilder::new().build()?;
/// assert_eq!(Policy::from_words(policy.words())?, policy);
/// assert_eq!(policy.url(0), None);
///
/// assert_eq!(Policy::from_words(&[]), Err(Fault::Length { words: 0 }));
/// // 64 URLs by http at host 0, of which nobody may learn.
/// let zeros = Policy::from_words(&[0; POLICY_WORDS]);
/// assert!(matches!(zeros, Err(Fault::EventEndpoint { url: 0, .. })));
/// # Ok::<(), Fault>(())
/// ```
#[derive(Clone, Debug, PartialEq, Eq, Hash)]
pub struct Policy {
    words: Words,
}

impl Policy {
    /// The policy of these words, or the first of their [`faults`].
    ///
    /// # Panics
    ///
    /// Where the library takes words that have a fault, or refuses words that have none. By its contract it never does: the `libmonitor.a` that is
    /// linked would have to be of another version than this crate.
    pub fn from_words(words: &[u32]) -> Result<Policy, Fault> {
        let first = agreed(faults(words).next(), is_refused(words));
        let length = Fault::Length { words: words.len() };
        match first {
            Some(fault) => Err(fault),
            None => Ok(Policy {
                words: words.try_into().map_err(|_| length)?,
            }),
        }
    }

    /// Its words, as [`feed`] takes them.
    pub const fn words(&self) -> &[u32; POLICY_WORDS] {
        &self.words
    }

    /// A URL; None where its row is empty, or the number is above 63.
    pub fn url(&self, url: u32) -> Option<Url> {
        let [word, readers, writers] = url_row(&self.words, below(url, URLS)?);
        Some(Url {
            address: address(word)?,
            is_entry: ENTRY <= word,
            readers: Endpoints::from_bits(readers),
            writers: Endpoints::from_bits(writers),
        })
    }

    /// The labels of a host's cookie; None where the host is above 15 or the key above 7.
    pub fn cookie(&self, host: u32, key: u32) -> Option<Labels> {
        let at = COOKIES_AT + 2 * (KEYS * below(host, HOSTS)? + below(key, KEYS)?);
        Some(Labels {
            readers: Endpoints::from_bits(self.words[at]),
            writers: Endpoints::from_bits(self.words[at + 1]),
        })
    }

    /// A connection; None where the number is above 31.
    pub fn connection(&self, connection: u32) -> Option<Connection> {
        let row = connection_row(&self.words, below(connection, CONNECTIONS)?);
        let [readers, script_readers, writers] = row.map(Endpoints::from_bits);
        Some(Connection {
            readers,
            script_readers,
            writers,
        })
    }

    /// Whether the host is listed as always https.
    pub fn is_always_https(&self, host: u32) -> bool {
        below(host, HOSTS).is_some_and(|host| self.words[HTTPS_HOSTS_AT] >> host & 1 == 1)
    }

    /// The partner of a URL: what is asked for in its place. A URL by http at a host that is always https has one, and no other.
    pub fn partner(&self, url: u32) -> Option<u32> {
        let partner = self.words[PARTNERS_AT + below(url, URLS)?];
        (partner != NO_PARTNER).then_some(partner)
    }

    /// The URL that is asked for where this one is named: its partner, or itself where it has none.
    pub fn asked_for(&self, url: u32) -> u32 {
        self.partner(url).unwrap_or(url)
    }
}

/// Whether the library refuses a policy. What is asked next, the length of the script table, is wrong here.
fn is_refused(policy: &[u32]) -> bool {
    let answer = feed(policy, &[], &mut [], &[], &mut [0; OUT_BYTES]);
    answer == Err(Refusal::PolicyBad)
}

/// The first fault of a policy, if there is one, and if it is refused for that.
fn agreed(first: Option<Fault>, is_refused: bool) -> Option<Fault> {
    match (first, is_refused) {
        (Some(_), true) | (None, false) => first,
        (Some(fault), false) => unknown("libmonitor.a", format_args!("not 2 where {fault}")),
        (None, true) => unknown("libmonitor.a", format_args!("2 on a policy without faults")),
    }
}

#[cfg(test)]
mod tests {
    use super::*;

    const FAULT: Option<Fault> = Some(Fault::Length { words: 3 });

    #[test]
    fn a_fault_is_told_where_the_library_refuses() {
        assert_eq!(agreed(FAULT, true), FAULT);
        assert_eq!(agreed(None, false), None);
    }

    #[test]
    #[should_panic(expected = "libmonitor.a answers not 2 where a policy does not have 3 words")]
    fn a_fault_that_the_library_takes_is_told() {
        agreed(FAULT, false);
    }

    #[test]
    #[should_panic(expected = "libmonitor.a answers 2 on a policy without faults")]
    fn a_fault_that_the_library_alone_finds_is_told() {
        agreed(None, true);
    }
}
