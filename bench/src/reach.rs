//! What it costs to count the reach table of a policy, beside `reach_count_fast`.

use std::hint::black_box;
use std::time::Instant;

use cases::labels::{ALL, PARTNERS_AT, POLICY_WORDS, URLS};
use cases::policy::{document, policy_of, Style};
use cases::Random;
use reference::Reach;
use zolherima::reach_table::{self, PolicyBad, Table};

use crate::timing::{take_turns, Times, SPARE};
use crate::workload::everything;

/// Nanoseconds for one policy.
pub struct Row {
    pub name: &'static str,
    pub times: Times,
    /// How many cells are counted, on average.
    pub cells: f64,
}

/// A round counts so often, so that reading the clock does not count.
const CALLS: usize = 64;
/// The processor comes to know a single policy by heart, so some are counted in turn.
const DENSE_POLICIES: u64 = 16;
const SEED: u64 = 2026;

type Count = fn(&[u32]) -> Result<Table, PolicyBad>;

fn by_hand(policy: &[u32]) -> Result<Table, PolicyBad> {
    match reference::reach_count_fast(policy) {
        Reach {
            number: 0,
            urls,
            all,
        } => Ok(Table { urls, all }),
        _ => Err(PolicyBad),
    }
}

pub fn all(rounds: usize) -> Vec<Row> {
    let dense = |case| policy_of(Style::Dense, &Random::of_case(SEED, case));
    let mut refused = everything().policy;
    refused[PARTNERS_AT + URLS - 1] = ALL;
    let workloads = [
        ("policy P", vec![document()]),
        ("dense policies", (0..DENSE_POLICIES).map(dense).collect()),
        ("everything is reached", vec![everything().policy]),
        (
            "refused: the last partner is not well formed",
            vec![refused],
        ),
    ];
    let row = |(name, policies): (&'static str, Vec<Vec<u32>>)| row(name, &policies, rounds);
    workloads.into_iter().map(row).collect()
}

fn row(name: &'static str, policies: &[Vec<u32>], rounds: usize) -> Row {
    let mut cells = 0;
    for policy in policies {
        let table = reach_table::count(policy);
        assert_eq!(table, by_hand(policy), "{name}");
        cells += table.map_or(0, |table| table.all);
    }
    let words = policies.concat();
    let mut room = vec![0; words.len() + SPARE];
    let both = [reach_table::count as Count, by_hand];
    Row {
        name,
        cells: f64::from(cells) / policies.len() as f64,
        times: take_turns(rounds, both, |place, count| {
            let lent = &mut room[place..][..words.len()];
            lent.copy_from_slice(&words);
            let policies: Vec<&[u32]> = lent.chunks_exact(POLICY_WORDS).collect();
            time(&policies, count)
        }),
    }
}

fn time(policies: &[&[u32]], count: Count) -> f64 {
    let start = Instant::now();
    for call in 0..CALLS {
        let _ = black_box(count(black_box(policies[call % policies.len()])));
    }
    start.elapsed().as_nanos() as f64 / CALLS as f64
}
