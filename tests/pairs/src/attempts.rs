//! Scripts that try. Those of a setting mostly keep to the labels of the page and the connection that they are made for, but it is by scripts
//! that do not that a monitor is found out: they read a cookie, write one with what was read, or send a request, allowed or not.

use cases::labels::STEP_BYTES;
use cases::setting::mask_of;
use cases::{Random, Setting};
use reference::layout::{
    KEYS, OP_PICTURE, OP_READ, OP_SEND, OP_SKIP, OP_WRITE, REGISTERS, SCRIPTS, SCRIPT_BYTES, STEPS,
};

/// Lays attempts into some scripts of the setting.
pub fn lay(setting: &mut Setting, random: &Random) {
    let mut scripts = setting.scripts.clone();
    for script in scripts.chunks_exact_mut(SCRIPT_BYTES) {
        // None, the first steps, on which the rest then depends, or all.
        let count = random.pick(&[0, 0, 1, 1, random.within(1..=4), STEPS]);
        for place in script.chunks_exact_mut(STEP_BYTES).take(count) {
            place.copy_from_slice(&attempt(setting, random));
        }
    }
    setting.scripts = scripts;
}

/// A step with fields in range, and the request one that fits.
fn attempt(setting: &Setting, random: &Random) -> [u8; STEP_BYTES] {
    let register = random.byte_below(REGISTERS as u8);
    let key = random.byte_below(KEYS as u8);
    let connection = setting.useful_connection(random);
    let url = setting.loadable_url(connection, random);
    let handler = handler_on(connection, setting, random);
    random.weighted(&[
        (4, [OP_READ, register, key, 0]),
        (4, [OP_WRITE, key, register, 0]),
        (3, [OP_SEND, url, connection, handler]),
        (1, [OP_PICTURE, url, connection, 0]),
        (1, [OP_SKIP, register, random.byte_below(4), 0]),
    ])
}

/// A script that was made for this connection, where there is one, so that it comes far as a handler.
fn handler_on(connection: u8, setting: &Setting, random: &Random) -> u8 {
    let at_home = mask_of(SCRIPTS, |script| {
        setting.home(script).connection == connection
    });
    let any = random.byte_below(SCRIPTS as u8);
    random.bit_of(at_home).unwrap_or(any)
}
