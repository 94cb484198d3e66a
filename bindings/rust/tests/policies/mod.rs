//! Policies for the tests.

use zolherima::{NO_PARTNER, NO_URL, POLICY_WORDS};

pub const ALL: u32 = u32::MAX;
/// Where the connections stand in a policy, and the https partners of the 64 URLs behind the word of hosts that are always https.
const CONNECTIONS: usize = 448;
const PARTNERS: usize = POLICY_WORDS - 64;
const HTTPS_HOSTS: usize = PARTNERS - 1;

pub type Policy = [u32; POLICY_WORDS];

/// No URL, no host that is always https, and connections that nobody writes.
pub fn empty() -> Policy {
    let mut policy = [0; POLICY_WORDS];
    for url in policy[..192].chunks_exact_mut(3) {
        url.copy_from_slice(&NO_URL);
    }
    policy[PARTNERS..].fill(NO_PARTNER);
    policy
}

pub fn set_url(policy: &mut Policy, url: usize, words: [u32; 3]) {
    policy[3 * url..][..3].copy_from_slice(&words);
}

/// Script readers are the readers.
pub fn set_connection(policy: &mut Policy, connection: usize, readers: u32, writers: u32) {
    policy[CONNECTIONS + 3 * connection..][..3].copy_from_slice(&[readers, readers, writers]);
}

/// Document 01's policy P.
pub fn small_post() -> Policy {
    let mut policy = empty();
    set_url(&mut policy, 0, [16, 0x10001, 0x10000]);
    set_url(&mut policy, 1, [1, ALL, ALL]);
    set_url(&mut policy, 2, [17, ALL, 0x30000]);
    set_url(&mut policy, 3, [0, 0x10001, 0x10001]);
    set_connection(&mut policy, 0, 0x10001, 0x10000);
    set_connection(&mut policy, 1, ALL, ALL);
    set_connection(&mut policy, 2, 0x10000, 0x10000);
    set_connection(&mut policy, 3, 0x10001, 0x10001);
    policy
}

/// The same, with host 0 always https: URL 0 is asked for in place of URL 3.
pub fn listed_post() -> Policy {
    let mut policy = small_post();
    policy[HTTPS_HOSTS] = 1;
    policy[PARTNERS + 3] = 0;
    policy
}
