//! Policies of two hosts, well formed, whose sets often fit one another.

use crate::draw::Draw;
use zolherima::{Connection, Endpoint, Endpoints, Labels, Policy, PolicyBuilder, Url};

/// The URLs that a policy has. Those of the first two places are by https at hosts 0 and 1, and partners where one is called for.
pub const URLS: [u8; 6] = [0, 1, 2, 3, 40, 63];
/// The connections whose sets are drawn; all others have nobody in theirs.
pub const CONNECTIONS: [u8; 5] = [0, 1, 2, 3, 31];
/// The keys whose cookies have sets that are drawn.
pub const KEYS: [u8; 4] = [0, 1, 2, 7];
const HOSTS: [u32; 2] = [0, 1];

pub fn policy(draw: &mut Draw) -> Policy {
    let mut policy = PolicyBuilder::new();
    let listed = HOSTS.map(|_| draw.one_in(3));
    let is_wide = draw.one_in(2);
    let mut sets = Sets { draw, is_wide };
    urls(&mut sets, &mut policy, listed);
    connections(&mut sets, &mut policy);
    cookies(&mut sets, &mut policy);
    policy.build().unwrap()
}

fn urls(sets: &mut Sets<'_>, policy: &mut PolicyBuilder, listed: [bool; HOSTS.len()]) {
    for (place, url) in URLS.into_iter().enumerate() {
        let address = address(sets.draw, place);
        policy.url(url.into(), labelled(sets, address));
        let host = address.host();
        if listed[host as usize] {
            policy.always_https(host);
        }
        if listed[host as usize] && address == address.event() {
            policy.partner(url.into(), URLS[host as usize].into());
        }
    }
}

/// https at each host first, then http at each, then any.
fn address(draw: &mut Draw, place: usize) -> Endpoint {
    let (hosts, any) = (HOSTS.len(), draw.below(2 * HOSTS.len()));
    let place = if place < 2 * hosts { place } else { any };
    let host = HOSTS[place % hosts];
    let of_host = if place < hosts {
        Endpoint::https(host)
    } else {
        Endpoint::http(host)
    };
    of_host.unwrap()
}

fn labelled(sets: &mut Sets<'_>, address: Endpoint) -> Url {
    Url {
        address,
        is_entry: sets.draw.one_in(4),
        readers: sets.set() | address.event().into(),
        writers: sets.set(),
    }
}

fn connections(sets: &mut Sets<'_>, policy: &mut PolicyBuilder) {
    for connection in CONNECTIONS {
        let readers = sets.set();
        let fewer = sets.set();
        let it = Connection {
            readers,
            script_readers: readers.except(readers.except(fewer)),
            writers: sets.set(),
        };
        policy.connection(connection.into(), it);
    }
}

fn cookies(sets: &mut Sets<'_>, policy: &mut PolicyBuilder) {
    for key in KEYS
        .into_iter()
        .flat_map(|key| HOSTS.map(|host| (host, key)))
    {
        let it = Labels {
            readers: sets.set(),
            writers: sets.set(),
        };
        policy.cookie(key.0, key.1.into(), it);
    }
}

/// Draws the sets of one policy.
struct Sets<'a> {
    draw: &'a mut Draw,
    /// Whether nearly all of them are everyone, so that sessions go far.
    is_wide: bool,
}

impl Sets<'_> {
    /// Mostly one of a row in which each is within the next.
    fn set(&mut self) -> Endpoints {
        let row = [0x0001_0000, 0x0001_0001, 0x0003_0001, 0x0003_0003, u32::MAX];
        if self.is_wide && !self.draw.one_in(6) {
            return Endpoints::EVERYONE;
        }
        Endpoints::from_bits(match self.draw.below(12) {
            0 => 0,
            1 => self.draw.word(),
            2 | 3 => self.draw.word() & 0x0003_0003,
            4..=6 => u32::MAX,
            _ => self.draw.of(&row),
        })
    }
}
