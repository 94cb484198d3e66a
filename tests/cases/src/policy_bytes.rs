//! Policies as programs read them from standard input: words of four bytes, most significant first; and inputs that are no policy.

use crate::labels::POLICY_WORDS;
use crate::random::Random;

pub const POLICY_BYTES: usize = 4 * POLICY_WORDS;

pub fn policy_bytes(policy: &[u32]) -> Vec<u8> {
    policy.iter().flat_map(|word| word.to_be_bytes()).collect()
}

/// The bytes of a policy, of which some lack or come again behind its end: a byte, a word, or many.
pub fn of_length(policy: &[u32], random: &Random) -> Vec<u8> {
    let off = random.pick(&[1, 2, 3, 4, 5, random.within(1..=POLICY_BYTES)]);
    let long = random.pick(&[2 * POLICY_BYTES, 4_096, 100_000, POLICY_BYTES + off]);
    let bytes = random.pick(&[0, POLICY_BYTES - off, POLICY_BYTES + off, long]);
    policy_bytes(policy)
        .into_iter()
        .cycle()
        .take(bytes)
        .collect()
}

/// Bytes of all values or of one, as many as a policy has, or not.
pub fn noise(random: &Random) -> Vec<u8> {
    let bytes = random.pick(&[POLICY_BYTES, POLICY_BYTES, random.below(2 * POLICY_BYTES)]);
    let mut input = vec![random.pick(&[0, 0xff, b'1', b'\n']); bytes];
    if random.one_in(2) {
        random.fill_bytes(&mut input);
    }
    input
}
