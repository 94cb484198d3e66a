//! Well formed policies of several styles. Labels drawn freely would hardly ever be within one another, so most styles draw their sets
//! from a small pool and change one endpoint here and there: tests of subsets then succeed often, and often fail by a single endpoint.

use crate::labels::{
    event_set, rows, Url, ALL, CONNECTIONS, CONNECTIONS_AT, COOKIES_AT, ENTRY, HOSTS,
    HTTPS_HOSTS_AT, KEYS, NO_PARTNER, NO_URL, PARTNERS_AT, POLICY_WORDS, URLS,
};
use crate::random::Random;

#[derive(Clone, Copy, Debug, PartialEq, Eq)]
pub enum Style {
    /// Document 01's policy P.
    Document,
    /// Policy P with some words changed.
    NearDocument,
    /// A few hosts, URLs and connections, sets over the endpoints of these hosts.
    Sparse,
    /// Every URL and connection, sets that lack few endpoints or none.
    Dense,
    /// Sets from a chain, each within the next.
    Chain,
    /// Sets at random, with few or many endpoints.
    Free,
    /// No URL at all.
    Bare,
}

const STYLES: [(usize, Style); 7] = [
    (2, Style::Document),
    (3, Style::NearDocument),
    (8, Style::Sparse),
    (10, Style::Dense),
    (8, Style::Chain),
    (3, Style::Free),
    (1, Style::Bare),
];

/// Of any style; about half of them list hosts that are always https, and about half have entries.
pub fn random_policy(random: &Random) -> Vec<u32> {
    let style = random.weighted(&STYLES);
    let mut policy = policy_of(style, random);
    if style == Style::Document {
        return policy;
    }
    if random.one_in(2) {
        list_hosts(&mut policy, random);
    }
    if random.one_in(2) {
        make_entries(&mut policy, random);
    }
    if random.one_in(8) {
        take_endpoints(&mut policy, random);
    }
    policy
}

/// Lists no host, and has no entry.
pub fn policy_of(style: Style, random: &Random) -> Vec<u32> {
    match style {
        Style::Document => document(),
        Style::NearDocument => near_document(random),
        Style::Sparse => Outline::sparse(random).policy(random),
        Style::Dense => Outline::dense(random).policy(random),
        Style::Chain => Outline::chain(random).policy(random),
        Style::Free => Outline::free(random).policy(random),
        Style::Bare => Outline::bare(random).policy(random),
    }
}

/// Document 01's policy P.
pub fn document() -> Vec<u32> {
    let mut policy = empty();
    policy[..12].copy_from_slice(&[
        16,
        0x0001_0001,
        0x0001_0000, //
        1,
        ALL,
        ALL, //
        17,
        ALL,
        0x0003_0000, //
        0,
        0x0001_0001,
        0x0001_0001,
    ]);
    policy[COOKIES_AT..COOKIES_AT + 2].copy_from_slice(&[0x0001_0000, 0x0001_0000]);
    policy[CONNECTIONS_AT..CONNECTIONS_AT + 12].copy_from_slice(&[
        0x0001_0001,
        0x0001_0001,
        0x0001_0000, //
        ALL,
        ALL,
        ALL, //
        0x0001_0000,
        0x0001_0000,
        0x0001_0000, //
        0x0001_0001,
        0x0001_0001,
        0x0001_0001,
    ]);
    policy
}

/// No URL, every set empty, and no host listed.
pub fn empty() -> Vec<u32> {
    let mut policy = vec![0; POLICY_WORDS];
    for url in policy[..COOKIES_AT].chunks_exact_mut(3) {
        url.copy_from_slice(&NO_URL);
    }
    policy[PARTNERS_AT..].fill(NO_PARTNER);
    policy
}

fn near_document(random: &Random) -> Vec<u32> {
    let mut policy = document();
    let pool = [0, 0x0001_0000, 0x0001_0001, 0x0003_0003, ALL];
    for _ in 0..random.within(1..=6) {
        let at = random.pick(&[0, 3, 6, 9, CONNECTIONS_AT, CONNECTIONS_AT + 3]);
        policy[at + random.within(1..=2)] = random.pick(&pool);
        let cookie = COOKIES_AT + random.below(4 * KEYS);
        policy[cookie] = random.pick(&pool);
    }
    well_formed(&mut policy);
    policy
}

/// Adds or takes away what keeps rows and connections from being well formed.
pub fn well_formed(policy: &mut [u32]) {
    for row in places_in(rows(policy, Url::exists)) {
        policy[3 * row + 1] |= Url::of(policy, row as u8).event();
    }
    for connection in policy[CONNECTIONS_AT..HTTPS_HOSTS_AT].chunks_exact_mut(3) {
        connection[1] &= connection[0];
    }
}

/// Lists hosts as always https, also such as have no URL, and gives each of their http rows a partner.
pub fn list_hosts(policy: &mut [u32], random: &Random) {
    let any = random.word() & HOST_BITS;
    let hosts = random.pick(&[HOST_BITS, any, any | random.word() & HOST_BITS]);
    policy[HTTPS_HOSTS_AT] = hosts;
    for host in (0..HOSTS as u32).filter(|host| hosts >> host & 1 == 1) {
        let (http, https) = (host, HOSTS as u32 + host);
        if rows_at(policy, http) != 0 && rows_at(policy, https) == 0 {
            add_url(policy, https, http, random);
        }
        give_partners(policy, host, random);
    }
}

/// Lists other hosts in place of those that are listed, of which no row need change: each has an https row, or no http row.
pub fn relist_hosts(policy: &mut [u32], random: &Random) {
    unlist_hosts(policy);
    let hosts = random.pick(&[HOST_BITS, random.word()]);
    for host in (0..HOSTS as u32).filter(|host| hosts >> host & 1 == 1) {
        if rows_at(policy, host) == 0 || rows_at(policy, HOSTS as u32 + host) != 0 {
            policy[HTTPS_HOSTS_AT] |= 1 << host;
            give_partners(policy, host, random);
        }
    }
}

/// Gives the http rows of listed hosts a partner again, mostly another one.
pub fn change_partners(policy: &mut [u32], random: &Random) {
    let hosts = policy[HTTPS_HOSTS_AT];
    for host in (0..HOSTS as u32).filter(|host| hosts >> host & 1 == 1) {
        give_partners(policy, host, random);
    }
}

/// Lists no host.
pub fn unlist_hosts(policy: &mut [u32]) {
    policy[HTTPS_HOSTS_AT] = 0;
    policy[PARTNERS_AT..].fill(NO_PARTNER);
}

/// Gives each http row of a host one of its https rows as a partner.
fn give_partners(policy: &mut [u32], host: u32, random: &Random) {
    let partners = rows_at(policy, HOSTS as u32 + host);
    for row in places_in(rows_at(policy, host)) {
        let partner = random.bit_of(partners).expect("the host has an https row");
        policy[PARTNERS_AT + row] = partner.into();
    }
}

/// The bits of a word that stand for hosts.
const HOST_BITS: u32 = (1 << HOSTS) - 1;

/// The rows of this address, as a mask.
fn rows_at(policy: &[u32], address: u32) -> u64 {
    rows(policy, |url| url.exists() && url.address() == address)
}

/// Makes some of the URLs entries. Writers are taken from many of these and from a few others, so that it matters which they are.
pub fn make_entries(policy: &mut [u32], random: &Random) {
    let one_in = random.pick(&[1, 2, 2, 4]);
    for row in places_in(rows(policy, Url::exists)) {
        let is_entry = random.one_in(one_in);
        if is_entry {
            policy[3 * row] += ENTRY;
        }
        if random.one_in(if is_entry { 2 } else { 6 }) {
            let kept = random.pick(&[0, random.word(), lacking(ALL, random)]);
            policy[3 * row + 2] &= kept;
        }
    }
}

/// Takes the same from some readers and writers of URLs and connections: the first endpoint, the last one, or both of a host. So it is often these
/// that are missing, and nothing else.
fn take_endpoints(policy: &mut [u32], random: &Random) {
    let of_host = 0x0001_0001 << random.below(HOSTS);
    let taken: u32 = random.pick(&[1, 1 << 31, of_host]);
    let urls = places_in(rows(policy, Url::exists)).flat_map(|row| [3 * row + 1, 3 * row + 2]);
    let connections = (CONNECTIONS_AT..HTTPS_HOSTS_AT).step_by(3);
    for place in urls.chain(connections.flat_map(|place| [place, place + 2])) {
        if random.one_in(6) {
            policy[place] &= !taken;
        }
    }
    well_formed(policy);
}

/// A URL of this address in an empty row, with the sets of another URL; where no row is empty, one of the other address, which has the same
/// host, becomes it.
fn add_url(policy: &mut [u32], address: u32, other: u32, random: &Random) {
    let like = random.bit_of(rows(policy, Url::exists));
    let like = Url::of(policy, like.expect("a row has the other address"));
    let row = random.bit_of(rows(policy, |url| !url.exists()));
    match row {
        Some(row) => {
            let sets = [address, like.readers | event_set(address), like.writers];
            policy[3 * usize::from(row)..][..3].copy_from_slice(&sets);
        }
        None => {
            let row = random.bit_of(rows_at(policy, other));
            policy[3 * usize::from(row.expect("a row has the other address"))] = address;
        }
    }
}

/// What the sets of a policy are drawn from, and how much of it is filled.
struct Outline {
    /// Each set is one of these, by chance with one endpoint changed.
    pool: Vec<u32>,
    /// One in so many sets has an endpoint changed.
    change: usize,
    hosts: Vec<u32>,
    urls: usize,
    connections: usize,
}

impl Outline {
    fn sparse(random: &Random) -> Outline {
        let hosts: Vec<u32> = (0..random.within(1..=3))
            .map(|_| random.below(HOSTS) as u32)
            .collect();
        let endpoints = hosts.iter().fold(0, |set, host| set | 0x0001_0001 << host);
        let mut pool = vec![endpoints, ALL];
        for _ in 0..random.within(1..=3) {
            pool.push(endpoints & random.word());
        }
        if random.one_in(3) {
            pool.push(0);
        }
        Outline {
            pool,
            change: 24,
            hosts,
            urls: random.within(1..=8),
            connections: random.within(1..=6),
        }
    }

    fn dense(random: &Random) -> Outline {
        let mut pool = vec![ALL; random.within(1..=4)];
        for _ in 0..random.below(4) {
            pool.push(lacking(ALL, random));
        }
        Outline {
            pool,
            change: random.within(8..=64),
            hosts: all_hosts(),
            urls: URLS,
            connections: CONNECTIONS,
        }
    }

    fn chain(random: &Random) -> Outline {
        let mut pool = vec![ALL];
        for _ in 0..random.within(1..=4) {
            let last = pool[pool.len() - 1];
            pool.push(last & (random.word() | random.word() | random.word()));
        }
        Outline {
            pool,
            change: random.within(8..=64),
            hosts: all_hosts(),
            urls: random.within(16..=URLS),
            connections: random.within(8..=CONNECTIONS),
        }
    }

    fn free(random: &Random) -> Outline {
        let pool = (0..64)
            .map(|_| match random.below(4) {
                0 => random.word(),
                1 => random.word() & random.word() & random.word(),
                2 => random.word() | random.word() | random.word(),
                _ => 1 << random.below(32),
            })
            .collect();
        Outline {
            pool,
            change: 4,
            hosts: all_hosts(),
            urls: random.within(1..=URLS),
            connections: random.within(1..=CONNECTIONS),
        }
    }

    fn bare(random: &Random) -> Outline {
        Outline {
            urls: 0,
            ..Outline::free(random)
        }
    }

    fn set(&self, random: &Random) -> u32 {
        let set = random.pick(&self.pool);
        if random.one_in(self.change) {
            set ^ 1 << random.below(32)
        } else {
            set
        }
    }

    fn policy(&self, random: &Random) -> Vec<u32> {
        let mut policy = empty();
        for url in places(self.urls, URLS, random) {
            self.fill_url(&mut policy[3 * url..3 * url + 3], random);
        }
        for set in &mut policy[COOKIES_AT..CONNECTIONS_AT] {
            *set = self.set(random);
        }
        for connection in places(self.connections, CONNECTIONS, random) {
            let at = CONNECTIONS_AT + 3 * connection;
            for set in &mut policy[at..at + 3] {
                *set = self.set(random);
            }
        }
        well_formed(&mut policy);
        policy
    }

    fn fill_url(&self, url: &mut [u32], random: &Random) {
        url[0] = random.pick(&self.hosts) + 16 * random.below(2) as u32;
        url[1] = self.set(random);
        url[2] = self.set(random);
    }
}

/// The rows of a mask.
pub fn places_in(mask: u64) -> impl Iterator<Item = usize> {
    (0..URLS).filter(move |row| mask >> row & 1 == 1)
}

/// Every place, or so many at random, perhaps some of them twice.
fn places(count: usize, of: usize, random: &Random) -> Vec<usize> {
    if count == of {
        (0..of).collect()
    } else {
        (0..count).map(|_| random.below(of)).collect()
    }
}

fn all_hosts() -> Vec<u32> {
    (0..HOSTS as u32).collect()
}

/// A set without one endpoint or two.
pub fn lacking(set: u32, random: &Random) -> u32 {
    set & !(1 << random.below(32)) & !(1 << random.below(32))
}
