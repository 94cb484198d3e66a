//! Policies for the reach table, and pairs of them that differ in one place. Under a policy made at random a connection hardly ever fits every
//! URL, so some are made here that are full or empty but for a few words.

use crate::damage::{damage_partner, refuse_policy};
use crate::labels::{
    event_set, rows, upgraded, Url, ALL, CONNECTIONS, CONNECTIONS_AT, COOKIES_AT, ENTRY,
    HTTPS_HOSTS_AT, NO_URL, URLS,
};
use crate::policy::{
    self, change_partners, empty, lacking, places_in, random_policy, relist_hosts, unlist_hosts,
    well_formed, Style,
};
use crate::random::Random;

/// What a policy is like.
#[derive(Clone, Copy, Debug, PartialEq, Eq)]
pub enum Sort {
    /// Of any style.
    Any,
    /// Every connection fits every URL, but for a few words.
    Full,
    /// Hosts are listed, and many rows differ from their partners.
    Listed,
    /// Rows are empty, and connections have no readers.
    Hollow,
    /// One connection fits the only URL, or nearly does.
    Single,
}

const SORTS: [(usize, Sort); 5] = [
    (4, Sort::Any),
    (6, Sort::Full),
    (3, Sort::Listed),
    (1, Sort::Hollow),
    (2, Sort::Single),
];

/// Well formed, of any sort.
pub fn good(random: &Random) -> Vec<u32> {
    policy_of(random.weighted(&SORTS), random)
}

/// Of any sort, mostly well formed.
pub fn any(random: &Random) -> Vec<u32> {
    match random.one_in(6) {
        true => bad(random),
        false => good(random),
    }
}

/// Damaged, often in a partner, or of another length; now and then it is well formed all the same.
pub fn bad(random: &Random) -> Vec<u32> {
    if random.one_in(3) {
        let mut policy = listed(random);
        damage_partner(&mut policy, random);
        return policy;
    }
    let mut policy = good(random);
    refuse_policy(&mut policy, random);
    policy
}

pub fn policy_of(sort: Sort, random: &Random) -> Vec<u32> {
    match sort {
        Sort::Any => random_policy(random),
        Sort::Full => full(random),
        Sort::Listed => listed(random),
        Sort::Hollow => hollow(random),
        Sort::Single => single(random),
    }
}

/// The first place, the last one, or any.
fn place(count: usize, random: &Random) -> usize {
    random.pick(&[0, count - 1, random.below(count)])
}

/// The first endpoint, the last one, or any, as a set.
fn endpoint(random: &Random) -> u32 {
    1 << place(32, random)
}

/// The address word of any URL, an entry or none.
fn any_word(random: &Random) -> u32 {
    random.below(2 * ENTRY as usize) as u32
}

fn connections(policy: &mut [u32]) -> impl Iterator<Item = &mut [u32]> {
    policy[CONNECTIONS_AT..HTTPS_HOSTS_AT].chunks_exact_mut(3)
}

/// Every connection fits every URL.
fn filled(random: &Random) -> Vec<u32> {
    let mut policy = empty();
    for row in policy[..COOKIES_AT].chunks_exact_mut(3) {
        let writers = random.pick(&[0, ALL, random.word()]);
        row.copy_from_slice(&[any_word(random), ALL, writers]);
    }
    for sets in connections(&mut policy) {
        let readers = random.pick(&[0, ALL, ALL, random.word()]);
        sets.copy_from_slice(&[readers, readers & random.word(), ALL]);
    }
    policy
}

fn full(random: &Random) -> Vec<u32> {
    let mut policy = filled(random);
    for _ in 0..random.pick(&[0, 0, 1, 1, 2, 8]) {
        weaken(&mut policy, random);
    }
    well_formed(&mut policy);
    if random.one_in(2) {
        relist_hosts(&mut policy, random);
    }
    policy
}

/// Takes a URL, a reader of one, or writers of a connection.
fn weaken(policy: &mut [u32], random: &Random) {
    let row = 3 * place(URLS, random);
    let writers = CONNECTIONS_AT + 3 * place(CONNECTIONS, random) + 2;
    match random.below(4) {
        0 => policy[row..row + 3].copy_from_slice(&NO_URL),
        1 => policy[row + 1] &= !endpoint(random),
        2 => policy[writers] &= !endpoint(random),
        _ => policy[writers] &= random.pick(&[0, random.word(), lacking(ALL, random)]),
    }
}

fn listed(random: &Random) -> Vec<u32> {
    let mut policy = filled(random);
    let one_in = random.pick(&[2, 4, 16]);
    for row in policy[..COOKIES_AT].chunks_exact_mut(3) {
        match random.below(2 * one_in) {
            0 => row.copy_from_slice(&NO_URL),
            1 | 2 => row[1] &= random.word() | random.word(),
            _ => (),
        }
    }
    for sets in connections(&mut policy) {
        if random.one_in(one_in) {
            sets[2] &= random.word() | random.word();
        }
    }
    well_formed(&mut policy);
    relist_hosts(&mut policy, random);
    policy
}

fn hollow(random: &Random) -> Vec<u32> {
    let style = random.pick(&[Style::Bare, Style::Sparse]);
    let mut policy = policy::policy_of(style, random);
    for sets in connections(&mut policy) {
        if random.one_in(2) {
            sets.copy_from_slice(&[0, 0, random.pick(&[ALL, random.word()])]);
        }
    }
    policy
}

/// The other connections have no writers.
fn single(random: &Random) -> Vec<u32> {
    let word = any_word(random);
    let (event, message) = (event_set(word), 1 << (word % ENTRY));
    let mut url_readers = random.pick(&[ALL, event, random.word() | event]);
    let mut readers = url_readers & random.pick(&[0, ALL, random.word()]);
    let mut writers = message | random.pick(&[0, ALL, random.word()]);
    match random.below(8) {
        0 => writers &= !message,
        1 => writers = event,
        2 => readers |= endpoint(random),
        3 => url_readers &= !endpoint(random) | event,
        _ => (),
    }
    let mut policy = empty();
    let row = 3 * place(URLS, random);
    policy[row..row + 3].copy_from_slice(&[word, url_readers, random.word()]);
    let connection = CONNECTIONS_AT + 3 * place(CONNECTIONS, random);
    let script_readers = readers & random.word();
    policy[connection..connection + 3].copy_from_slice(&[readers, script_readers, writers]);
    policy
}

/// What two policies differ in, beside words that no count looks at.
#[derive(Clone, Copy, Debug, PartialEq, Eq)]
pub enum Change {
    Url,
    Connection,
    /// Nothing but such words.
    Rest,
}

/// Two policies that are well formed.
#[derive(Clone, Debug, PartialEq, Eq)]
pub struct Pair {
    pub change: Change,
    pub before: Vec<u32>,
    pub after: Vec<u32>,
}

impl Pair {
    pub fn of(change: Change, random: &Random) -> Pair {
        let mut before = match random.below(4) {
            0 => filled(random),
            1 => listed(random),
            _ => good(random),
        };
        if random.one_in(8) {
            unlist_hosts(&mut before);
        }
        let mut after = before.clone();
        match change {
            Change::Url => change_url(&mut after, random),
            Change::Connection => change_connection(&mut after, random),
            Change::Rest if random.one_in(2) => change_url_writers(&mut after, random),
            Change::Rest => change_rest(&mut after, random),
        }
        if random.one_in(3) {
            change_rest(&mut after, random);
        }
        if random.one_in(2) {
            (before, after) = (after, before);
        }
        Pair {
            change,
            before,
            after,
        }
    }
}

/// Every fourth time a URL that a partner is, if there is one. Where hosts are listed and the row gets another address, others are listed.
fn change_url(policy: &mut [u32], random: &Random) {
    let row = match random.one_in(4) {
        true => usize::from(upgraded(policy, random.byte_below(URLS as u8))),
        false => place(URLS, random),
    };
    let old = Url::of(policy, row as u8);
    let words = other_url(policy, old, random);
    policy[3 * row..3 * row + 3].copy_from_slice(&words);
    let is_moved = words[0] % ENTRY != old.address() || words[0] == NO_URL[0] || !old.exists();
    if is_moved && policy[HTTPS_HOSTS_AT] != 0 {
        relist_hosts(policy, random);
    }
}

/// None, one that all may read, one with any sets, one with an endpoint changed, or another one of the policy.
fn other_url(policy: &[u32], old: Url, random: &Random) -> [u32; 3] {
    let word = match old.exists() && random.one_in(2) {
        true => old.word,
        false => any_word(random),
    };
    let event = event_set(word);
    let any = random.pick(&[0, random.word()]) | event;
    let other = Url::of(policy, random.byte_below(URLS as u8));
    random.pick(&[
        NO_URL,
        [word, ALL, random.word()],
        [word, any, random.word()],
        [word, (old.readers ^ endpoint(random)) | event, old.writers],
        [other.word, other.readers, other.writers],
    ])
}

fn change_connection(policy: &mut [u32], random: &Random) {
    let connection = place(CONNECTIONS, random);
    let sets = connections(policy).nth(connection);
    let sets = sets.expect("there is such a connection");
    let (readers, writers) = random.pick(&[
        (sets[0], 0),
        (sets[0], ALL),
        (0, ALL),
        (random.word(), random.word()),
        (sets[0] ^ endpoint(random), sets[2]),
        (sets[0], sets[2] ^ endpoint(random)),
    ]);
    sets.copy_from_slice(&[readers, readers & random.word(), writers]);
}

/// Other writers of URLs, other entries, or both.
fn change_url_writers(policy: &mut [u32], random: &Random) {
    let which = random.within(1..=3);
    for row in places_in(rows(policy, Url::exists)) {
        if which & 1 != 0 {
            policy[3 * row + 2] = random.word();
        }
        if which & 2 != 0 && random.one_in(2) {
            policy[3 * row] ^= ENTRY;
        }
    }
}

/// Other labels of cookies, script readers, listed hosts with their partners, or partners; or several of these.
fn change_rest(policy: &mut [u32], random: &Random) {
    let which = random.pick(&[1, 2, 4, 8, random.within(1..=15)]);
    if which & 1 != 0 {
        random.fill_words(&mut policy[COOKIES_AT..CONNECTIONS_AT]);
    }
    if which & 2 != 0 {
        connections(policy).for_each(|sets| sets[1] = sets[0] & random.word());
    }
    if which & 4 != 0 {
        relist_hosts(policy, random);
    }
    if which & 8 != 0 {
        change_partners(policy, random);
    }
}

#[cfg(test)]
mod tests {
    use super::*;
    use reference::reach_count;

    #[test]
    fn every_sort_is_well_formed() {
        let random = Random::new(1);
        for (_, sort) in SORTS {
            for _ in 0..500 {
                let policy = policy_of(sort, &random);
                assert_eq!(reach_count(&policy).number, 0, "{sort:?}");
            }
        }
    }

    #[test]
    fn what_is_filled_has_every_url_on_every_connection() {
        let random = Random::new(1);
        for _ in 0..100 {
            assert_eq!(
                reach_count(&filled(&random)).all as usize,
                CONNECTIONS * URLS
            );
        }
    }

    #[test]
    fn pairs_are_well_formed() {
        let random = Random::new(1);
        for change in [Change::Url, Change::Connection, Change::Rest] {
            for _ in 0..1_000 {
                let Pair { before, after, .. } = Pair::of(change, &random);
                let numbers = [before, after].map(|policy| reach_count(&policy).number);
                assert_eq!(numbers, [0, 0], "{change:?}");
            }
        }
    }
}
