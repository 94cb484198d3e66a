//! Whether words are a policy that is well formed, and where not, why.

use crate::layout::{address, below, connection_row, url_row, Words, HTTPS_HOSTS_AT, PARTNERS_AT};
use crate::{Endpoint, Endpoints, Fault, Scheme, CONNECTIONS, HOSTS, NO_PARTNER, NO_URL, URLS};

/// All faults of words, in the order of the words, one of a row at most. There is none just where the library does not refuse the policy
/// ([`PolicyBad`](crate::Refusal::PolicyBad)).
///
/// ```
/// use zolherima::{faults, Fault, PolicyBuilder};
///
/// let mut words = *PolicyBuilder::new().words();
/// assert_eq!(faults(&words).next(), None);
///
/// // Row 2 is not in use and has readers.
/// words[7] = 1;
/// let last = words.len() - 1;
/// words[last] = 5;
/// let two = [Fault::EmptyRowLabelled { url: 2 }, Fault::PartnerUncalled { url: 63, partner: 5 }];
/// assert!(faults(&words).eq(two));
/// assert!(faults(&words[1..]).eq([Fault::Length { words: last }]));
/// ```
pub fn faults(words: &[u32]) -> impl Iterator<Item = Fault> + '_ {
    let whole = <&Words>::try_from(words);
    let length = Fault::Length { words: words.len() };
    let length = whole.is_err().then_some(length);
    length
        .into_iter()
        .chain(whole.into_iter().flat_map(row_faults))
}

fn row_faults(words: &Words) -> impl Iterator<Item = Fault> + '_ {
    let urls = (0..URLS).filter_map(|url| url_fault(words, url));
    let connections = (0..CONNECTIONS).filter_map(|connection| connection_fault(words, connection));
    let partners = (0..URLS).filter_map(|url| partner_fault(words, url));
    urls.chain(connections)
        .chain(hosts_fault(words))
        .chain(partners)
}

fn url_fault(words: &Words, url: usize) -> Option<Fault> {
    let row = url_row(words, url);
    let number = url as u32;
    let [word, readers, _] = row;
    match address(word) {
        Some(address) => {
            let missing = address.event();
            let is_missing = !Endpoints::from_bits(readers).has(missing);
            is_missing.then_some(Fault::EventEndpoint {
                url: number,
                missing,
            })
        }
        None if row == NO_URL => None,
        None if word == NO_URL[0] => Some(Fault::EmptyRowLabelled { url: number }),
        None => Some(Fault::Address { url: number, word }),
    }
}

fn connection_fault(words: &Words, connection: usize) -> Option<Fault> {
    let [readers, script_readers, _] = connection_row(words, connection).map(Endpoints::from_bits);
    Some(Fault::ScriptReaders {
        connection: connection as u32,
        missing: script_readers.except(readers).lowest()?,
    })
}

fn hosts_fault(words: &Words) -> Option<Fault> {
    let word = words[HTTPS_HOSTS_AT];
    (word >> HOSTS != 0).then_some(Fault::HostsAbove { word })
}

fn partner_fault(words: &Words, url: usize) -> Option<Fault> {
    let partner = words[PARTNERS_AT + url];
    let number = url as u32;
    match replaced_host(words, url) {
        None if partner == NO_PARTNER => None,
        None => Some(Fault::PartnerUncalled {
            url: number,
            partner,
        }),
        Some(_) if partner == NO_PARTNER => Some(Fault::PartnerMissing { url: number }),
        Some(host) if address_of(words, partner) == Endpoint::https(host) => None,
        Some(_) => Some(Fault::PartnerUnfit {
            url: number,
            partner,
        }),
    }
}

/// The host of a URL by http whose host is listed as always https.
fn replaced_host(words: &Words, url: usize) -> Option<u32> {
    let address = address(url_row(words, url)[0])?;
    let listed = Endpoints::from_bits(words[HTTPS_HOSTS_AT]);
    let is_replaced = address.scheme() == Scheme::Http && listed.has(address);
    is_replaced.then_some(address.host())
}

/// The address of a URL, where there is one of this number.
fn address_of(words: &Words, url: u32) -> Option<Endpoint> {
    let url = below(url, URLS)?;
    address(url_row(words, url)[0])
}
