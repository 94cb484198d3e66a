//! How the cost of a call grows: by the record's length, by open connections, by script steps, by requests.

use cases::labels::OPEN_AT;
use reference::layout::SCRIPT_BYTES;

use crate::timing::{measure, Times};
use crate::workload::{everything, with, Session, ADDITIONS, REQUESTS};

pub struct Growth {
    pub by: &'static str,
    pub points: Vec<(usize, Times)>,
}

pub fn all(rounds: usize) -> Vec<Growth> {
    vec![
        grows(
            "bytes of a redirect's record",
            (0..=8).map(delivered),
            rounds,
        ),
        grows("open connections", (0..=32).step_by(4).map(open), rounds),
        grows("script steps", (4..=32).step_by(4).map(steps), rounds),
        grows(
            "requests with eight cookies",
            (4..=32).step_by(4).map(requests),
            rounds,
        ),
    ]
}

fn grows(
    by: &'static str,
    sessions: impl Iterator<Item = (usize, Session)>,
    rounds: usize,
) -> Growth {
    let points = sessions
        .map(|(at, session)| (at, measure(&[session], rounds)))
        .collect();
    Growth { by, points }
}

/// A redirect that delivers as many cookies.
fn delivered(cookies: usize) -> (usize, Session) {
    let mut record = vec![0x23, 1, 1];
    if cookies > 0 {
        record[0] = 0x27;
        record.push((0xff_u32 >> (8 - cookies)) as u8);
        record.extend(vec![1; 4 * cookies]);
    }
    record.push(1);
    (record.len(), with(&everything(), &record))
}

/// A record that is refused by its form, with so many connections open: the checks alone.
fn open(connections: usize) -> (usize, Session) {
    let mut session = with(&everything(), &[]);
    session.state[OPEN_AT + connections..].fill(0);
    (connections, session)
}

fn steps(count: usize) -> (usize, Session) {
    (count, script_of(ADDITIONS, count))
}

fn requests(count: usize) -> (usize, Session) {
    (count, script_of(REQUESTS, count))
}

/// A response whose script runs so many steps; the last one ends it where it is not the last of the script.
fn script_of(script: u8, count: usize) -> Session {
    let mut session = with(&everything(), &[0x0b, 0, 0, script]);
    let code = &mut session.scripts[SCRIPT_BYTES * script as usize..][..SCRIPT_BYTES];
    code[4 * count..].fill(0);
    session
}
