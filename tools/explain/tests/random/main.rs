//! Random sessions, the same in every run: each record is explained and held against the library, and everything that can happen has to occur.

mod agree;
mod draw;
mod met;
mod policies;
mod records;
mod repair;
mod scripts;

use draw::Draw;
use explain::explain_and_compare;
use met::Met;
use zolherima::State;

const SESSIONS: u64 = 400;
const RECORDS: usize = 100;

#[test]
fn every_explanation_is_what_the_library_did() {
    let mut met = Met::default();
    for seed in 0..SESSIONS {
        session(seed, &mut met);
    }
    met.assert_all();
}

fn session(seed: u64, met: &mut Met) {
    let mut draw = Draw::new(seed);
    let policy = policies::policy(&mut draw);
    let scripts = scripts::scripts(&mut draw);
    let mut state = State::new();
    for _ in 0..RECORDS {
        let before = state.clone();
        let record = records::record(&mut draw, &state);
        let explained = explain_and_compare(&policy, &scripts, &mut state, &record)
            .unwrap_or_else(|difference| panic!("seed {seed}: {difference}"));
        agree::check(&policy, &before, &explained);
        met.note(&record, &explained);
    }
}
