//! Script tables whose fields are mostly in range.

use crate::draw::Draw;
use crate::policies::{CONNECTIONS, KEYS, URLS};
use zolherima::{Scripts, Step, REGISTERS, STEPS};

/// The scripts that are drawn; all others end at once.
pub const SCRIPTS: [u8; 4] = [0, 1, 2, 15];

pub fn scripts(draw: &mut Draw) -> Scripts {
    let mut scripts = Scripts::new();
    for script in SCRIPTS {
        let steps: Vec<Step> = (0..1 + draw.below(STEPS)).map(|_| step(draw)).collect();
        scripts.set(script.into(), &steps).unwrap();
    }
    scripts
}

fn step(draw: &mut Draw) -> Step {
    match draw.below(40) {
        0 => Step::End,
        1 => Step::of([draw.byte(), draw.byte(), draw.byte(), draw.byte()]),
        2..=7 => Step::Set {
            register: register(draw),
            value: draw.word() as u16,
        },
        8..=10 => Step::Add {
            register: register(draw),
            left: register(draw),
            right: register(draw),
        },
        11..=14 => Step::Read {
            register: register(draw),
            key: nearly(draw, &KEYS),
        },
        15..=24 => Step::Write {
            key: nearly(draw, &KEYS),
            register: register(draw),
        },
        25..=29 => skip(draw),
        30..=36 => request(draw),
        _ => Step::Picture {
            url: nearly(draw, &URLS),
            connection: nearly(draw, &CONNECTIONS),
        },
    }
}

fn skip(draw: &mut Draw) -> Step {
    Step::SkipIfZero {
        register: register(draw),
        steps: if draw.one_in(4) {
            draw.byte()
        } else {
            draw.below(4) as u8
        },
    }
}

fn request(draw: &mut Draw) -> Step {
    Step::Request {
        url: nearly(draw, &URLS),
        connection: nearly(draw, &CONNECTIONS),
        handler: nearly(draw, &SCRIPTS),
    }
}

fn register(draw: &mut Draw) -> u8 {
    let registers: [u8; REGISTERS] = [0, 1, 2, 3];
    nearly(draw, &registers)
}

/// One of the choices, and seldom any byte.
pub fn nearly(draw: &mut Draw, choices: &[u8]) -> u8 {
    if draw.one_in(60) {
        draw.byte()
    } else {
        draw.of(choices)
    }
}
