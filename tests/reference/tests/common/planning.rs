//! What the tests of the journey share: policies made by hand, and both searches held to one another.

#![allow(dead_code)] // no file of tests needs all of it

use reference::layout::{
    NO_ADDRESS, NO_PARTNER, POLICY_CONNECTIONS, POLICY_COOKIES, POLICY_HTTPS_HOSTS,
    POLICY_PARTNERS, POLICY_WORDS,
};
use reference::{journey_find, journey_find_fast, journey_noting, Found, JourneySeen};

/// Every endpoint.
pub const ALL: u32 = u32::MAX;

/// A set of endpoints.
pub fn set(endpoints: &[u32]) -> u32 {
    endpoints
        .iter()
        .fold(0, |set, endpoint| set | 1 << endpoint)
}

/// No URL, every set empty, and no host listed.
pub fn bare() -> Vec<u32> {
    let mut policy = vec![0; POLICY_WORDS];
    for row in policy[..POLICY_COOKIES].chunks_mut(3) {
        row[0] = NO_ADDRESS;
    }
    policy[POLICY_PARTNERS..].fill(NO_PARTNER);
    policy
}

/// Address word, readers and writers of a URL.
pub fn set_row(policy: &mut [u32], row: usize, words: [u32; 3]) {
    policy[3 * row..][..3].copy_from_slice(&words);
}

/// Readers and writers of a connection.
pub fn set_connection(policy: &mut [u32], connection: usize, [readers, writers]: [u32; 2]) {
    let words = [readers, 0, writers];
    policy[POLICY_CONNECTIONS + 3 * connection..][..3].copy_from_slice(&words);
}

/// Lists a host, and gives these rows this partner.
pub fn list(policy: &mut [u32], host: u32, rows: &[usize], partner: u32) {
    policy[POLICY_HTTPS_HOSTS] |= 1 << host;
    for row in rows {
        policy[POLICY_PARTNERS + row] = partner;
    }
}

pub fn refused(number: u32) -> Found {
    Found {
        number,
        connection: 0,
    }
}

/// This connection is told, or 32 for none.
pub fn told(connection: u32) -> Found {
    Found {
        number: 0,
        connection,
    }
}

/// Finds a connection and holds the three searches to one another. Checks what holds of every answer.
pub fn find_noting(policy: &[u32], urls: &[u8], seen: &mut JourneySeen) -> Found {
    let found = journey_find(policy, urls);
    assert_eq!(journey_find_fast(policy, urls), found, "fast, {urls:?}");
    assert_eq!(
        journey_noting(policy, urls, seen),
        found,
        "noting, {urls:?}"
    );
    match found.number {
        0 => assert!(found.connection <= 32),
        number => {
            assert!([2, 17].contains(&number));
            assert_eq!(found, refused(number));
        }
    }
    found
}

pub fn find(policy: &[u32], urls: &[u8]) -> Found {
    find_noting(policy, urls, &mut JourneySeen::new())
}

/// What the program journey reads: the words of a policy.
pub fn input(policy: &[u32]) -> Vec<u8> {
    policy.iter().flat_map(|word| word.to_be_bytes()).collect()
}

/// Canteen and bank. The canteen is host 2, the bank host 5, a search page host 9; http at a host is the endpoint of the same number, https 16 more.
pub mod payment {
    use super::*;

    pub const CHECKOUT: u8 = 10;
    pub const BANK: u8 = 11;
    /// Http at the canteen; the checkout is its partner where the host is listed.
    pub const TYPED: u8 = 12;
    /// An entry, whose only writer is the canteen.
    pub const FRONT: u8 = 13;
    /// For the canteen's eyes only.
    pub const ACCOUNT: u8 = 14;
    pub const SEARCH: u8 = 15;
    /// Http at the canteen, without writers; the front page is its partner where the host is listed.
    pub const TYPED_FRONT: u8 = 16;

    /// No host is listed.
    pub fn policy() -> Vec<u32> {
        let both = set(&[2, 5, 18, 21]);
        let mut policy = bare();
        for (row, words) in [
            (CHECKOUT, [18, both, set(&[18, 21])]),
            (BANK, [21, both, set(&[18, 21])]),
            (TYPED, [2, both, set(&[2, 18, 21])]),
            (FRONT, [32 + 18, ALL, set(&[18])]),
            (ACCOUNT, [18, set(&[2, 18]), set(&[18])]),
            (SEARCH, [25, ALL, ALL]),
            (TYPED_FRONT, [2, ALL, 0]),
        ] {
            set_row(&mut policy, row.into(), words);
        }
        // The canteen alone, the bank alone, both without a word of the bank, both, and what comes from the search.
        set_connection(&mut policy, 0, [set(&[2, 18]), set(&[18])]);
        set_connection(&mut policy, 1, [set(&[5, 21]), set(&[21])]);
        set_connection(&mut policy, 2, [both, set(&[18])]);
        set_connection(&mut policy, 3, [both, set(&[18, 21])]);
        set_connection(&mut policy, 31, [set(&[2, 9, 18, 25]), set(&[18, 25])]);
        policy
    }

    /// The canteen is listed.
    pub fn listed() -> Vec<u32> {
        let mut policy = policy();
        list(&mut policy, 2, &[TYPED.into()], CHECKOUT.into());
        list(&mut policy, 2, &[TYPED_FRONT.into()], FRONT.into());
        policy
    }
}
