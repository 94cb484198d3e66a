//! Which policies 2 refuses.

use cases::labels::{
    within, Connection, Url, CONNECTIONS, HOSTS, HTTPS_HOSTS_AT, NO_PARTNER, NO_URL, PARTNERS_AT,
    POLICY_WORDS, URLS,
};

/// Whether the policy has its length and is well formed.
pub fn is_well_formed(policy: &[u32]) -> bool {
    policy.len() == POLICY_WORDS
        && policy[HTTPS_HOSTS_AT] < 1 << HOSTS
        && (0..CONNECTIONS as u8).all(|number| {
            let connection = Connection::of(policy, number);
            within(connection.script_readers, connection.readers)
        })
        && (0..URLS as u8).all(|row| is_row(policy, row) && has_its_partner(policy, row))
}

/// The row is empty, or its event endpoint is among its readers.
fn is_row(policy: &[u32], row: u8) -> bool {
    let url = Url::of(policy, row);
    match url.exists() {
        true => within(url.event(), url.readers),
        false => [url.word, url.readers, url.writers] == NO_URL,
    }
}

/// An http row of a listed host names an https row of the same host, and every other row none.
fn has_its_partner(policy: &[u32], row: u8) -> bool {
    let url = Url::of(policy, row);
    let word = policy[PARTNERS_AT + usize::from(row)];
    let is_listed = policy[HTTPS_HOSTS_AT] >> url.host() & 1 == 1;
    if !url.is_http() || !is_listed {
        return word == NO_PARTNER;
    }
    let exists = word < URLS as u32;
    exists && {
        let partner = Url::of(policy, word as u8);
        partner.is_https() && partner.host() == url.host()
    }
}

#[cfg(test)]
mod tests {
    use cases::damage::damage_policy;
    use cases::{Random, Setting};
    use reference::layout::{OUTPUT_BYTES, STATE_WORDS};
    use reference::numbers::POLICY_BAD;

    use super::*;

    /// What is well formed is so by the reference too, and what is not is refused by 2.
    #[test]
    fn the_reference_agrees() {
        for case in 0..2_000 {
            let random = Random::of_case(1, case);
            let Setting {
                mut policy,
                scripts,
                ..
            } = Setting::random(&random);
            assert!(is_well_formed(&policy), "case {case}");
            damage_policy(&mut policy, &random);
            let (mut state, mut out) = ([0; STATE_WORDS], [0; OUTPUT_BYTES]);
            let answer = reference::feed(&policy, &scripts, &mut state, &[], &mut out);
            let is_refused = answer.number == POLICY_BAD;
            assert_eq!(is_refused, !is_well_formed(&policy), "case {case}");
        }
    }
}
