//! The proved library and plain Rust take turns on the same input, round after round, and the best round of each counts.

use std::hint::black_box;
use std::time::Instant;

use crate::workload::Session;

/// A round repeats a session until it has about this many calls, so that reading the clock does not count.
const CALLS: usize = 1000;
/// Buffers begin at as many places in turn, a cache line apart and more, so that neither owes its time to where they lie.
const PLACES: usize = 16;
const STRIDE: usize = 20;
/// What a buffer has more, so that it can begin at each of the places.
pub const SPARE: usize = PLACES * STRIDE;

type Feed = fn(&[u32], &[u8], &mut [u32], &[u8], &mut [u8]) -> u32;

fn proved(policy: &[u32], scripts: &[u8], state: &mut [u32], record: &[u8], out: &mut [u8]) -> u32 {
    match zolherima::feed(policy, scripts, state, record, out) {
        Ok(accepted) => accepted.bytes as u32,
        Err(refusal) => refusal.number(),
    }
}

fn by_hand(
    policy: &[u32],
    scripts: &[u8],
    state: &mut [u32],
    record: &[u8],
    out: &mut [u8],
) -> u32 {
    let answer = reference::feed_fast(policy, scripts, state, record, out);
    if answer.number == 0 {
        answer.bytes
    } else {
        answer.number
    }
}

/// Nanoseconds for one call: the proved library's, and those of plain Rust.
#[derive(Clone, Copy, Debug)]
pub struct Times {
    pub proved: f64,
    pub by_hand: f64,
}

impl Times {
    pub fn ratio(self) -> f64 {
        self.proved / self.by_hand
    }
}

/// The mean over the calls of some sessions.
pub fn measure(sessions: &[Session], rounds: usize) -> Times {
    let calls: usize = sessions.iter().map(|session| session.records.len()).sum();
    let mut total = Times {
        proved: 0.0,
        by_hand: 0.0,
    };
    for session in sessions {
        let best = best_of(session, rounds);
        let share = session.records.len() as f64 / calls as f64;
        total.proved += best.proved * share;
        total.by_hand += best.by_hand * share;
    }
    total
}

fn best_of(session: &Session, rounds: usize) -> Times {
    let mut room = Room::of(session);
    take_turns(rounds, [proved as Feed, by_hand], |place, feed| {
        room.place = place;
        room.time(session, feed)
    })
}

/// The best round of each of two. `time` does a round with one of them, with its buffers at a place, and tells how long that took.
pub fn take_turns<F: Copy>(
    rounds: usize,
    [proved, by_hand]: [F; 2],
    mut time: impl FnMut(usize, F) -> f64,
) -> Times {
    let mut best = Times {
        proved: f64::MAX,
        by_hand: f64::MAX,
    };
    for round in 0..rounds {
        let place = round % PLACES * STRIDE;
        best.proved = best.proved.min(time(place, proved));
        best.by_hand = best.by_hand.min(time(place, by_hand));
    }
    best
}

/// The buffers of a session. Neither the state nor the output is cleared between calls; the state is set anew where a session starts.
struct Room {
    place: usize,
    policy: Vec<u32>,
    state: Vec<u32>,
    out: Vec<u8>,
}

impl Room {
    fn of(session: &Session) -> Room {
        Room {
            place: 0,
            policy: vec![0; session.policy.len() + SPARE],
            state: vec![0; session.state.len() + SPARE],
            out: vec![0; zolherima::OUT_BYTES + SPARE],
        }
    }

    fn time(&mut self, session: &Session, feed: Feed) -> f64 {
        let place = self.place;
        let policy = &mut self.policy[place..][..session.policy.len()];
        policy.copy_from_slice(&session.policy);
        let state = &mut self.state[place..][..session.state.len()];
        let out = &mut self.out[place..][..zolherima::OUT_BYTES];
        let repeats = CALLS.div_ceil(session.records.len());
        let start = Instant::now();
        for _ in 0..repeats {
            state.copy_from_slice(&session.state);
            for record in &session.records {
                black_box(feed(policy, &session.scripts, state, record, out));
            }
        }
        start.elapsed().as_nanos() as f64 / (repeats * session.records.len()) as f64
    }
}
