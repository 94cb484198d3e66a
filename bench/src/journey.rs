//! What it costs to find the connection for a journey, beside `journey_find_fast`.

use std::hint::black_box;
use std::time::Instant;

use cases::journey::Given;
use cases::labels::{
    ALL, CONNECTIONS, CONNECTIONS_AT, HOSTS, HTTPS_HOSTS_AT, NO_PARTNER, NO_URL, PARTNERS_AT,
    POLICY_WORDS, URLS,
};
use reference::Found;
use zolherima::journeys::{self, MOST_URLS};

use crate::timing::{take_turns, Times, SPARE};

/// A journey that is sought again and again.
struct Workload {
    name: &'static str,
    given: Given,
    /// What is answered: its number, and the connection.
    answer: (u32, u32),
}

/// Nanoseconds for one journey.
pub struct Row {
    pub name: &'static str,
    pub times: Times,
    pub urls: usize,
}

/// A round seeks a journey so often, so that reading the clock does not count.
const CALLS: usize = 250;
const NONE: u32 = CONNECTIONS as u32;

type Find = fn(&[u32], &[u8]) -> u32;

fn proved(policy: &[u32], urls: &[u8]) -> u32 {
    match journeys::find(policy, urls) {
        Ok(connection) => connection.unwrap_or(NONE),
        Err(refusal) => refusal.number(),
    }
}

fn by_hand(policy: &[u32], urls: &[u8]) -> u32 {
    match reference::journey_find_fast(policy, urls) {
        Found {
            number: 0,
            connection,
        } => connection,
        Found { number, .. } => number,
    }
}

pub fn all(rounds: usize) -> Vec<Row> {
    workloads().iter().map(|it| row(it, rounds)).collect()
}

fn workloads() -> [Workload; 5] {
    let longest: Vec<u8> = (0..MOST_URLS as u8).collect();
    let of = |name, policy, urls: &[u8], answer| Workload {
        name,
        given: Given {
            policy,
            urls: urls.to_vec(),
        },
        answer,
    };
    [
        of(
            "a payment: canteen, bank, canteen, on connection 0",
            payment(),
            &[0, 1, 0],
            (0, 0),
        ),
        of(
            "on connection 31, the others fail on the last URL",
            last_is_forbidden(CONNECTIONS - 1),
            &longest,
            (0, 31),
        ),
        of(
            "on none, all fail on the last URL",
            last_is_forbidden(CONNECTIONS),
            &longest,
            (0, NONE),
        ),
        of(
            "the same, every URL replaced by its partner",
            always_https(last_is_forbidden(CONNECTIONS)),
            &longest,
            (0, NONE),
        ),
        of(
            "refused: the last URL is not there",
            last_is_forbidden(CONNECTIONS),
            &[&longest[1..], &[URLS as u8]].concat(),
            (17, 0),
        ),
    ]
}

/// Neither URL nor connection.
fn empty() -> Vec<u32> {
    let mut policy = vec![0; POLICY_WORDS];
    for url in policy[..3 * URLS].chunks_exact_mut(3) {
        url.copy_from_slice(&NO_URL);
    }
    policy[PARTNERS_AT..].fill(NO_PARTNER);
    policy
}

/// A canteen and a bank, by https at two hosts, and one connection for both.
fn payment() -> Vec<u32> {
    let mut policy = empty();
    policy[..6].copy_from_slice(&[16, 0x0003_0003, 0x0003_0000, 17, 0x0003_0003, 0x0003_0000]);
    policy[CONNECTIONS_AT..][..3].copy_from_slice(&[0x0003_0003, 0x0003_0003, 0x0003_0000]);
    policy
}

/// Everyone reads and writes every URL and connection, by http and by https in turn for each host; but the last URL of the longest journey lacks a
/// writer that so many connections have, from the first on.
fn last_is_forbidden(connections: usize) -> Vec<u32> {
    let mut policy = empty();
    for (row, url) in policy[..3 * URLS].chunks_exact_mut(3).enumerate() {
        let https = row / HOSTS % 2 * HOSTS;
        url.copy_from_slice(&[(row % HOSTS + https) as u32, ALL, ALL]);
    }
    policy[CONNECTIONS_AT..HTTPS_HOSTS_AT].fill(ALL);
    let lacking = ALL >> 1;
    for url in [MOST_URLS - 1, MOST_URLS - 1 + HOSTS] {
        policy[3 * url + 2] = lacking;
    }
    for connection in connections..CONNECTIONS {
        policy[CONNECTIONS_AT + 3 * connection + 2] = lacking;
    }
    policy
}

/// Lists every host: the partner of an http row is the https row behind it.
fn always_https(mut policy: Vec<u32>) -> Vec<u32> {
    policy[HTTPS_HOSTS_AT] = (1 << HOSTS) - 1;
    for row in 0..URLS {
        if row / HOSTS % 2 == 0 {
            policy[PARTNERS_AT + row] = (row + HOSTS) as u32;
        }
    }
    policy
}

fn row(workload: &Workload, rounds: usize) -> Row {
    let Workload {
        name,
        given: Given { policy, urls },
        answer: (number, connection),
    } = workload;
    let answer = if *number == 0 { *connection } else { *number };
    assert_eq!(
        [proved, by_hand].map(|find| find(policy, urls)),
        [answer; 2]
    );
    let mut words = vec![0; policy.len() + SPARE];
    let mut bytes = vec![0; urls.len() + SPARE];
    Row {
        name,
        urls: urls.len(),
        times: take_turns(rounds, [proved as Find, by_hand], |place, find| {
            let lent = &mut words[place..][..policy.len()];
            lent.copy_from_slice(policy);
            let journey = &mut bytes[place..][..urls.len()];
            journey.copy_from_slice(urls);
            time(lent, journey, find)
        }),
    }
}

fn time(policy: &[u32], urls: &[u8], find: Find) -> f64 {
    let start = Instant::now();
    for _ in 0..CALLS {
        black_box(find(black_box(policy), black_box(urls)));
    }
    start.elapsed().as_nanos() as f64 / CALLS as f64
}
