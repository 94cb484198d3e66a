//! Sound states for a setting.

use crate::labels::{
    Pending, CONNECTIONS, DOCUMENT, HOSTS, KEYS, OPEN_AT, PICTURE, PRESENT_AT, SCRIPT, SCRIPTS,
    STATE_WORDS,
};
use crate::random::Random;
use crate::setting::Setting;

pub fn make_empty(state: &mut Vec<u32>) {
    state.clear();
    state.resize(STATE_WORDS, 0);
}

/// A sound state: some cookies, some open connections.
pub fn make_sound(setting: &Setting, state: &mut Vec<u32>, random: &Random) {
    make_empty(state);
    let fullness = random.below(4);
    random.fill_words(&mut state[..PRESENT_AT]);
    for host in 0..HOSTS {
        let present = keys_present(fullness, random);
        state[PRESENT_AT + host] = u32::from(present);
        for (key, value) in state[KEYS * host..KEYS * (host + 1)].iter_mut().enumerate() {
            *value = cookie_value(*value, present >> key & 1 == 1);
        }
    }
    open_connections(setting, state, random);
}

fn keys_present(fullness: usize, random: &Random) -> u8 {
    match fullness {
        0 => random.byte() & random.byte() & random.byte(),
        1 => random.byte(),
        2 => random.byte() | random.byte() | random.byte(),
        _ => 0xff,
    }
}

/// The value's own low bits say whether it becomes one of the edges.
fn cookie_value(random_word: u32, present: bool) -> u32 {
    match (present, random_word % 8) {
        (false, _) | (true, 0) => 0,
        (true, 1) => u32::MAX,
        (true, 2) => random_word % 256,
        (true, _) => random_word,
    }
}

fn open_connections(setting: &Setting, state: &mut [u32], random: &Random) {
    let one_in = random.pick(&[1, 2, 2, 4, 16]);
    for connection in 0..CONNECTIONS as u8 {
        if random.one_in(one_in) {
            let handler = random.byte_below(SCRIPTS as u8);
            let origin = setting.any_url(random);
            let url = setting.fitting_url(connection, random);
            open(
                setting,
                state,
                connection,
                pending(origin, handler, url, random),
            );
        }
    }
    // Some await a response whose script was made for just that connection and page.
    for script in 0..SCRIPTS as u8 {
        let home = setting.home(script);
        let url = match random.below(4) {
            0 => home.url,
            1 => setting.fitting_url(home.connection, random),
            _ => continue,
        };
        let at_home = pending(home.url, script, url, random);
        open(setting, state, home.connection, at_home);
    }
}

/// A document, a script's request, which alone has an origin and a handler, or a picture. Pictures are fewer, since nothing runs on a
/// response to one.
pub(crate) fn pending(origin: u8, handler: u8, url: u8, random: &Random) -> Pending {
    let (kind, origin, handler) = random.weighted(&[
        (2, (DOCUMENT, 0, 0)),
        (2, (SCRIPT, origin, handler)),
        (1, (PICTURE, 0, 0)),
    ]);
    Pending {
        kind,
        origin,
        handler,
        url,
    }
}

/// A connection that fits no URL stays free.
fn open(setting: &Setting, state: &mut [u32], connection: u8, pending: Pending) {
    if !setting.fits_none(connection) {
        state[OPEN_AT + usize::from(connection)] = pending.word();
    }
}
