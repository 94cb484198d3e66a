//! Policies, row by row.

use crate::layout::{below, Words, CONNECTIONS_AT, COOKIES_AT, HTTPS_HOSTS_AT, PARTNERS_AT};
use crate::{
    Connection, Fault, Labels, Named, Policy, Url, ENTRY, KEYS, NO_PARTNER, NO_URL, POLICY_WORDS,
    URLS,
};

/// Makes a policy, row by row. What is not named stays as it begins: no URL, cookies and connections of which nobody may learn and which nobody
/// may have shaped, and no host that is always https.
///
/// A number that is out of range is told by [`build`](PolicyBuilder::build), and so is a policy that is not well formed:
///
/// ```
/// use zolherima::{Endpoint, Endpoints, Fault, Labels, Named, PolicyBuilder, Url};
///
/// let canteen = Endpoint::https(0).unwrap();
/// let mut builder = PolicyBuilder::new();
/// builder.url(
///     0,
///     Url { address: canteen, is_entry: false, readers: canteen.into(), writers: canteen.into() },
/// );
/// // Who sees host 0 on the wire is not among the readers.
/// let missing = canteen.event();
/// assert_eq!(builder.build(), Err(Fault::EventEndpoint { url: 0, missing }));
///
/// // A row can be given again.
/// let menu = Url { address: canteen, is_entry: false, readers: Endpoints::EVERYONE, writers: canteen.into() };
/// let policy = builder.url(0, menu).build()?;
/// assert_eq!(policy.url(0), Some(menu));
///
/// builder.cookie(16, 0, Labels::default());
/// assert_eq!(builder.build(), Err(Fault::NumberAbove { what: Named::Host, number: 16 }));
/// # Ok::<(), Fault>(())
/// ```
#[derive(Clone, Debug, PartialEq, Eq, Hash)]
pub struct PolicyBuilder {
    words: Words,
    /// The first number that was out of range.
    number_above: Option<Fault>,
}

impl PolicyBuilder {
    /// No URL, nobody's cookies and connections, and no host that is always https.
    pub const fn new() -> PolicyBuilder {
        let mut words = [0; POLICY_WORDS];
        let mut url = 0;
        while url < URLS {
            words[3 * url] = NO_URL[0];
            words[PARTNERS_AT + url] = NO_PARTNER;
            url += 1;
        }
        PolicyBuilder {
            words,
            number_above: None,
        }
    }

    /// Sets a URL, 0 to 63.
    pub fn url(&mut self, url: u32, it: Url) -> &mut Self {
        let entry = if it.is_entry { ENTRY } else { 0 };
        let row = [
            it.address.number() + entry,
            it.readers.bits(),
            it.writers.bits(),
        ];
        if let Some(url) = self.index(Named::Url, url) {
            self.write(3 * url, &row);
        }
        self
    }

    /// Sets the labels of a cookie: host 0 to 15, key 0 to 7.
    pub fn cookie(&mut self, host: u32, key: u32, it: Labels) -> &mut Self {
        let row = [it.readers.bits(), it.writers.bits()];
        let host = self.index(Named::Host, host);
        let key = self.index(Named::Key, key);
        if let (Some(host), Some(key)) = (host, key) {
            self.write(COOKIES_AT + 2 * (KEYS * host + key), &row);
        }
        self
    }

    /// Sets a connection, 0 to 31.
    pub fn connection(&mut self, connection: u32, it: Connection) -> &mut Self {
        let row = [it.readers, it.script_readers, it.writers].map(|set| set.bits());
        if let Some(connection) = self.index(Named::Connection, connection) {
            self.write(CONNECTIONS_AT + 3 * connection, &row);
        }
        self
    }

    /// Lists a host, 0 to 15, as always https. Each of its URLs by http then needs a [partner](PolicyBuilder::partner).
    pub fn always_https(&mut self, host: u32) -> &mut Self {
        if let Some(host) = self.index(Named::Host, host) {
            self.words[HTTPS_HOSTS_AT] |= 1 << host;
        }
        self
    }

    /// Gives a URL by http at a host that is always https its partner: a URL by https at the same host, which is asked for in its place.
    pub fn partner(&mut self, url: u32, partner: u32) -> &mut Self {
        let url = self.index(Named::Url, url);
        let is_number = self.index(Named::Url, partner).is_some();
        if let (Some(url), true) = (url, is_number) {
            self.words[PARTNERS_AT + url] = partner;
        }
        self
    }

    /// The words as they stand, well formed or not.
    pub const fn words(&self) -> &[u32; POLICY_WORDS] {
        &self.words
    }

    /// The policy, or the first fault: a number that was out of range, else the first of [`faults`](crate::faults).
    ///
    /// # Panics
    ///
    /// As [`Policy::from_words`].
    pub fn build(&self) -> Result<Policy, Fault> {
        match self.number_above {
            Some(fault) => Err(fault),
            None => Policy::from_words(&self.words),
        }
    }

    /// Where the number is in range; else it is kept, for `build` to tell.
    fn index(&mut self, what: Named, number: u32) -> Option<usize> {
        let index = below(number, what.end());
        if index.is_none() {
            self.number_above
                .get_or_insert(Fault::NumberAbove { what, number });
        }
        index
    }

    fn write(&mut self, at: usize, row: &[u32]) {
        self.words[at..at + row.len()].copy_from_slice(row);
    }
}

impl Default for PolicyBuilder {
    fn default() -> PolicyBuilder {
        PolicyBuilder::new()
    }
}
