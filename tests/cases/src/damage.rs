//! Damage to what the monitor is lent beside the record: each clause of the refusals 1 to 4, and anything at random.

use crate::labels::{
    event_set, rows, Pending, Url, CONNECTIONS, CONNECTIONS_AT, ENTRY, HOSTS, HTTPS_HOSTS_AT, KEYS,
    NO_PARTNER, NO_URL, OPEN_AT, OUTPUT_BYTES, PARTNERS_AT, PICTURE, POLICY_WORDS, PRESENT_AT,
    SCRIPTS, STATE_WORDS, URLS,
};
use crate::random::Random;
use crate::setting::Setting;
use crate::state;

/// Another length: none at all, one off, or anything up to twice as long.
fn resize<T: Copy + Default>(list: &mut Vec<T>, random: &Random) {
    let right = list.len();
    let length = random.pick(&[0, 1, right - 1, right + 1, random.below(2 * right)]);
    list.resize(length, T::default());
}

/// One bit of a word.
fn bit(random: &Random) -> u32 {
    1 << random.below(32)
}

/// Damages a policy of the right length; now and then it stays well formed.
pub fn damage_policy(policy: &mut Vec<u32>, random: &Random) {
    let url = 3 * random.below(URLS);
    let connection = CONNECTIONS_AT + 3 * random.below(CONNECTIONS);
    match random.below(15) {
        0 => resize(policy, random),
        1 => policy.truncate(random.pick(&[HTTPS_HOSTS_AT, PARTNERS_AT])),
        2 | 3 => damage_address(policy, random),
        4 => remove_event(&mut policy[url..url + 3], random),
        5 => leave_sets(&mut policy[url..url + 3], random),
        6 => policy[connection + 1] |= bit(random),
        7 => policy[random.pick(&[url, connection]) + random.below(3)] ^= bit(random),
        8 => random.fill_words(policy),
        9 => policy[HTTPS_HOSTS_AT] ^= bit(random),
        _ => damage_partner(policy, random),
    }
}

/// Damages a policy of the right length, or gives it another one; now and then it stays well formed.
pub fn refuse_policy(policy: &mut Vec<u32>, random: &Random) {
    match random.below(8) {
        0 | 1 => repeat_words(policy, random),
        2 => policy[HTTPS_HOSTS_AT] |= 1 << random.within(HOSTS..=31),
        3 => add_script_reader(policy, random),
        _ => damage_policy(policy, random),
    }
}

/// Another length of a policy, whose words come again behind its end: none at all, one off, or anything up to twice as long.
fn repeat_words(policy: &mut Vec<u32>, random: &Random) {
    let near = [POLICY_WORDS - 1, POLICY_WORDS + 1];
    let any = random.below(2 * POLICY_WORDS);
    let words = random.pick(&[0, 1, near[0], near[1], 2 * POLICY_WORDS, any]);
    *policy = policy.iter().copied().cycle().take(words).collect();
}

/// Gives a connection a script reader that is none of its readers.
fn add_script_reader(policy: &mut [u32], random: &Random) {
    let at = CONNECTIONS_AT + 3 * random.below(CONNECTIONS);
    let reader = bit(random);
    policy[at] &= !reader;
    policy[at + 1] |= reader;
}

/// Gives a row of any kind, or the last one, another partner, or none.
pub fn damage_partner(policy: &mut [u32], random: &Random) {
    let of = |holds: fn(Url) -> bool| random.bit_of(rows(policy, holds)).unwrap_or(0);
    let (http, https) = (of(Url::is_http), of(Url::is_https));
    let empty = of(|url| !url.exists());
    let last = URLS as u8 - 1;
    let row = random.weighted(&[(4, http), (1, https), (1, empty), (1, last)]);
    let place = PARTNERS_AT + usize::from(row);
    let [http, https, empty] = [of(Url::is_http), of(Url::is_https), empty].map(u32::from);
    policy[place] = random.pick(&[
        NO_PARTNER,
        URLS as u32,
        policy[place] | 1 << random.within(8..=31),
        random.word() % 256,
        empty,
        http,
        http,
        https,
        https,
        https,
    ]);
}

/// Gives a row another address word. Every second one of those in use can then be read by everyone, so that nothing but the word is wrong.
fn damage_address(policy: &mut [u32], random: &Random) {
    let used = rows(policy, Url::exists);
    let either = random.pick(&[used, !used]);
    let at = 3 * usize::from(random.bit_of(either).unwrap_or(0));
    policy[at] = other_address(policy[at], random);
    if either == used && random.one_in(2) {
        policy[at + 1] = u32::MAX;
    }
}

/// Another address word: one at a border of what there is, an entry's for one that is none or the other way round, one that is no address, or
/// one with a bit that no address has.
fn other_address(word: u32, random: &Random) -> u32 {
    let border = random.pick(&[31, 32, 47, 48, 63, 64, 64, 254, 254, 255, 256]);
    let none = random.within(64..=254) as u32;
    let above = word | 1 << random.within(6..=31);
    random.pick(&[
        border,
        border,
        word ^ ENTRY,
        word.wrapping_add(ENTRY),
        none,
        above,
        random.word(),
    ])
}

fn remove_event(url: &mut [u32], random: &Random) {
    url[0] %= random.pick(&[ENTRY, 2 * ENTRY]);
    url[1] = random.pick(&[url[1], u32::MAX]) & !event_set(url[0]);
}

/// No URL by its address, and yet with readers or writers.
fn leave_sets(url: &mut [u32], random: &Random) {
    url.copy_from_slice(&NO_URL);
    url[1 + random.below(2)] = random.pick(&[bit(random), u32::MAX]);
}

pub fn damage_scripts(scripts: &mut Vec<u8>, random: &Random) {
    resize(scripts, random);
}

/// Makes an output too short.
pub fn damage_out(out: &mut Vec<u8>, random: &Random) {
    out.truncate(random.pick(&[
        0,
        1,
        OUTPUT_BYTES - 1,
        OUTPUT_BYTES - 1,
        random.below(OUTPUT_BYTES),
    ]));
}

/// Damages a sound state; now and then it stays sound.
pub fn damage_state(setting: &Setting, state: &mut Vec<u32>, random: &Random) {
    match random.below(10) {
        0 => resize(state, random),
        1 => state[PRESENT_AT + random.below(HOSTS)] |= 1 << random.within(8..=31),
        2 => value_of_absent(state, random),
        3 => state[random.below(STATE_WORDS)] = random.pick(&[bit(random), random.word()]),
        4 => random.fill_words(state),
        _ => damage_connection(setting, state, random),
    }
}

fn value_of_absent(state: &mut [u32], random: &Random) {
    let host = random.below(HOSTS);
    let key = random.below(KEYS);
    state[PRESENT_AT + host] &= !(1 << key);
    state[KEYS * host + key] = random.pick(&[bit(random), random.word().max(1)]);
}

fn damage_connection(setting: &Setting, state: &mut [u32], random: &Random) {
    let connection = setting.useful_connection(random);
    let mut pending = state::pending(
        setting.any_url(random),
        random.byte_below(SCRIPTS as u8),
        setting.fitting_url(connection, random),
        random,
    );
    let no_url = random.pick(&[URLS as u8, setting.no_url(random), 255, random.byte()]);
    match random.below(8) {
        0 => pending.kind = 0,
        1 => pending.kind = random.pick(&[PICTURE + 1, 5, 128, 255, random.byte()]),
        2 => pending.origin = random.pick(&[1, setting.any_url(random), random.byte()]),
        3 => pending.handler = random.pick(&[1, SCRIPTS as u8, random.byte()]),
        4 => pending.origin = no_url,
        5 => pending.url = no_url,
        6 => pending.url = misfit(setting, connection, random),
        _ => {
            // Any connection, also one that fits nothing, at any URL.
            let any = random.below(CONNECTIONS);
            state[OPEN_AT + any] = pending.word();
            return;
        }
    }
    state[OPEN_AT + usize::from(connection)] = pending.word();
}

fn misfit(setting: &Setting, connection: u8, random: &Random) -> u8 {
    let any = setting.any_url(random);
    setting.misfit(connection, random).unwrap_or(any)
}

/// Takes readers from the URL that a connection holds, or the URL's message endpoint from the connection's writers: the policy stays well
/// formed, but the connection no longer fits.
pub fn estrange(policy: &mut [u32], state: &[u32], random: &Random) {
    let connection = random.byte_below(CONNECTIONS as u8);
    let url = Pending::of(state, connection).url;
    if usize::from(url) >= URLS || !Url::of(policy, url).exists() {
        return;
    }
    let readers = 3 * usize::from(url) + 1;
    let writers = CONNECTIONS_AT + 3 * usize::from(connection) + 2;
    let url = Url::of(policy, url);
    if random.one_in(2) {
        policy[readers] = url.readers & random.word() | url.event();
    } else {
        policy[writers] &= !url.message();
    }
}
