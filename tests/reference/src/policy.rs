//! The policy: URLs, cookie tags, connections, and the hosts that are always
//! https.

use crate::endpoint::{Endpoint, EndpointSet};
use crate::layout::*;
use crate::seen::Event;

/// A row that is not empty.
#[derive(Debug, Clone, Copy)]
pub struct Url {
    /// 0 to 31: host for http, 16 + host for https.
    pub address: u32,
    /// Whether it is an entry, which anyone may link to.
    pub is_entry: bool,
    pub readers: EndpointSet,
    pub writers: EndpointSet,
}

impl Url {
    /// The host of the address.
    pub fn host(&self) -> usize {
        (self.address % HOSTS as u32) as usize
    }

    /// The message endpoint of a URL is its address.
    pub fn message_endpoint(&self) -> Endpoint {
        Endpoint(self.address)
    }

    /// Its event endpoint is the http endpoint of its host.
    pub fn event_endpoint(&self) -> Endpoint {
        Endpoint(self.host() as u32)
    }

    /// Whether it is https and not http.
    pub fn is_https(&self) -> bool {
        self.address >= HOSTS as u32
    }

    /// The clause that it breaks: the second one for an entry.
    pub fn clause(&self, of_other: Event, of_entry: Event) -> Event {
        match self.is_entry {
            false => of_other,
            true => of_entry,
        }
    }
}

/// The tag of a cookie.
#[derive(Debug, Clone, Copy)]
pub struct CookieTag {
    pub readers: EndpointSet,
    pub writers: EndpointSet,
}

/// The tag of a connection.
#[derive(Debug, Clone, Copy)]
pub struct ConnectionTag {
    pub readers: EndpointSet,
    pub script_readers: EndpointSet,
    pub writers: EndpointSet,
}

impl ConnectionTag {
    /// Its readers that the URL does not have.
    pub fn readers_missing(&self, url: &Url) -> EndpointSet {
        self.readers.missing_in(url.readers)
    }

    /// The URL's message endpoint, where it is not among the writers.
    pub fn message_missing(&self, url: &Url) -> EndpointSet {
        EndpointSet::of(url.message_endpoint()).missing_in(self.writers)
    }

    /// The URL's event endpoint, where it is not among the readers.
    pub fn event_missing(&self, url: &Url) -> EndpointSet {
        EndpointSet::of(url.event_endpoint()).missing_in(self.readers)
    }

    /// Its writers that the URL does not have, which is not asked of an entry.
    /// They have shaped the redirect or the script that asks for the URL.
    pub fn writers_missing(&self, url: &Url) -> EndpointSet {
        match url.is_entry {
            true => EndpointSet::EMPTY,
            false => self.writers.missing_in(url.writers),
        }
    }

    /// First half of "fits": the connection's readers are within the URL's.
    pub fn readers_fit(&self, url: &Url) -> bool {
        self.readers_missing(url).is_empty()
    }

    /// Second half: the URL's message endpoint is among the writers.
    pub fn writers_fit(&self, url: &Url) -> bool {
        self.message_missing(url).is_empty()
    }

    /// Both halves.
    pub fn fits(&self, url: &Url) -> bool {
        self.readers_fit(url) && self.writers_fit(url)
    }

    /// Whether the URL admits a redirect or a script that the writers have
    /// shaped.
    pub fn writers_admitted(&self, url: &Url) -> bool {
        self.writers_missing(url).is_empty()
    }
}

/// A well-formed policy.
#[derive(Debug, Clone)]
pub struct Policy {
    urls: Vec<Option<Url>>,
    cookies: Vec<CookieTag>,
    connections: Vec<ConnectionTag>,
    /// The number of each row's https partner, where it has one.
    partners: Vec<Option<usize>>,
}

impl Policy {
    /// Reads the words; the error is the clause that is broken.
    pub fn read(words: &[u32]) -> Result<Policy, Event> {
        if words.len() != POLICY_WORDS {
            return Err(Event::PolicyLength);
        }
        let urls = words[..POLICY_COOKIES].chunks(3).map(read_url);
        let urls = urls.collect::<Result<Vec<_>, _>>()?;
        let cookies = words[POLICY_COOKIES..POLICY_CONNECTIONS].chunks(2);
        let connections = words[POLICY_CONNECTIONS..POLICY_HTTPS_HOSTS].chunks(3);
        let connections = connections.map(read_connection).collect::<Result<_, _>>()?;
        let https_hosts = read_https_hosts(words[POLICY_HTTPS_HOSTS])?;
        let partners = (0..URLS).map(|number| {
            let word = words[POLICY_PARTNERS + number];
            read_partner(word, urls[number].as_ref(), &https_hosts, &urls)
        });
        Ok(Policy {
            cookies: cookies.map(read_cookie_tag).collect(),
            connections,
            partners: partners.collect::<Result<_, _>>()?,
            urls,
        })
    }

    /// The URL of this number; none when above 63 or an empty row.
    pub fn url(&self, number: usize) -> Option<&Url> {
        self.urls.get(number)?.as_ref()
    }

    /// A URL whose number has been checked.
    pub fn known_url(&self, number: usize) -> &Url {
        self.url(number).expect("the URL was checked")
    }

    /// The number 0 to 63 after the replacement: that of the row's partner,
    /// where it has one.
    pub fn upgraded(&self, number: usize) -> usize {
        self.partner(number).unwrap_or(number)
    }

    /// The partner of a row, which only an http row of an https host has.
    pub fn partner(&self, number: usize) -> Option<usize> {
        self.partners[number]
    }

    /// The tag of a host's cookie.
    pub fn cookie(&self, host: usize, key: usize) -> &CookieTag {
        &self.cookies[KEYS * host + key]
    }

    /// The tag of a connection 0 to 31.
    pub fn connection(&self, number: usize) -> &ConnectionTag {
        &self.connections[number]
    }
}

/// Each row is empty or has an address and its event endpoint among its
/// readers.
fn read_url(words: &[u32]) -> Result<Option<Url>, Event> {
    let [readers, writers] = [words[1], words[2]].map(EndpointSet);
    if words[0] == NO_ADDRESS {
        let empty = readers.is_empty() && writers.is_empty();
        return if empty {
            Ok(None)
        } else {
            Err(Event::PolicyEmptyRowSets)
        };
    }
    let (address, is_entry) = read_address(words[0])?;
    let url = Url {
        address,
        is_entry,
        readers,
        writers,
    };
    if !url.readers.holds(url.event_endpoint()) {
        return Err(url.clause(Event::PolicyEventEndpoint, Event::PolicyEventEndpointEntry));
    }
    Ok(Some(url))
}

/// The address, and whether it is an entry's: the word is an address 0 to 31,
/// or 32 more than the address of an entry.
fn read_address(word: u32) -> Result<(u32, bool), Event> {
    if word < ADDRESSES {
        return Ok((word, false));
    }
    if word < ENTRY + ADDRESSES {
        return Ok((word - ENTRY, true));
    }
    Err(match word < NO_ADDRESS {
        true => Event::PolicyAddress,
        false => Event::PolicyAddressAbove,
    })
}

fn read_cookie_tag(words: &[u32]) -> CookieTag {
    CookieTag {
        readers: EndpointSet(words[0]),
        writers: EndpointSet(words[1]),
    }
}

/// Each connection's script readers are within its readers.
fn read_connection(words: &[u32]) -> Result<ConnectionTag, Event> {
    let tag = ConnectionTag {
        readers: EndpointSet(words[0]),
        script_readers: EndpointSet(words[1]),
        writers: EndpointSet(words[2]),
    };
    if !tag.script_readers.within(tag.readers) {
        return Err(Event::PolicyScriptReaders);
    }
    Ok(tag)
}

/// Hosts are bits 0 to 15, other bits are zero; whether each host is listed.
fn read_https_hosts(word: u32) -> Result<Vec<bool>, Event> {
    if word >= 1 << HOSTS {
        return Err(Event::PolicyHttpsHosts);
    }
    Ok((0..HOSTS).map(|host| word >> host & 1 == 1).collect())
}

/// An http row of a listed host names a non-empty https row of the same host;
/// every other row has 255.
fn read_partner(
    word: u32,
    row: Option<&Url>,
    https_hosts: &[bool],
    urls: &[Option<Url>],
) -> Result<Option<usize>, Event> {
    let clause = match row {
        None => Event::PolicyPartnerOfEmpty,
        Some(url) if url.is_https() => url.clause(
            Event::PolicyPartnerOfHttps,
            Event::PolicyPartnerOfHttpsEntry,
        ),
        Some(url) if !https_hosts[url.host()] => url.clause(
            Event::PolicyPartnerNotListed,
            Event::PolicyPartnerNotListedEntry,
        ),
        Some(url) => return read_https_row(word, url, urls).map(Some),
    };
    match word {
        NO_PARTNER => Ok(None),
        _ => Err(clause),
    }
}

/// The number of a non-empty https row of the host of an http row.
fn read_https_row(word: u32, http: &Url, urls: &[Option<Url>]) -> Result<usize, Event> {
    if word == NO_PARTNER {
        return Err(http.clause(
            Event::PolicyPartnerMissing,
            Event::PolicyPartnerMissingEntry,
        ));
    }
    let number = word as usize;
    let row = urls.get(number).ok_or(Event::PolicyPartnerAbove)?;
    let partner = row.as_ref().ok_or(Event::PolicyPartnerEmpty)?;
    if !partner.is_https() {
        return Err(partner.clause(Event::PolicyPartnerHttp, Event::PolicyPartnerHttpEntry));
    }
    if partner.host() != http.host() {
        return Err(partner.clause(Event::PolicyPartnerHost, Event::PolicyPartnerHostEntry));
    }
    Ok(number)
}
