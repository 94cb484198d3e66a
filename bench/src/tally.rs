//! What the tally of a list of requests costs, beside `tally_fast`.

use std::hint::black_box;
use std::time::Instant;

use cases::list::{sent, List, MakeUp, DOCUMENT_REQUEST, SCRIPT_REQUEST};
use cases::record::COOKIES;
use cases::Random;
use zolherima::usage::{self, LIST_BYTES};

use crate::timing::{take_turns, Times, SPARE};

/// Lists that are as long as a list may be, or nearly so.
struct Workload {
    name: &'static str,
    lists: Vec<Vec<u8>>,
}

/// Nanoseconds for one list.
pub struct Row {
    pub name: &'static str,
    pub times: Times,
    /// How many records a list has, in the mean.
    pub records: f64,
}

const SEED: u64 = 2026;
/// As many lists are counted in turn: the processor would come to know a single one by heart.
const LISTS: u64 = 8;

type Count = fn(&[u8]);

fn proved(list: &[u8]) {
    black_box(&usage::count(list));
}

fn by_hand(list: &[u8]) {
    black_box(&reference::tally_fast(list));
}

pub fn all(rounds: usize) -> Vec<Row> {
    workloads().iter().map(|it| row(it, rounds)).collect()
}

fn workloads() -> [Workload; 4] {
    let plain_documents = MakeUp {
        maps: vec![DOCUMENT_REQUEST],
        ..MakeUp::all()
    };
    let full_scripts = MakeUp {
        maps: vec![SCRIPT_REQUEST | COOKIES],
        keys: vec![0xff],
        ..MakeUp::all()
    };
    let of = |name, make_up: MakeUp| {
        lists(name, |random| {
            List::within(LIST_BYTES, &make_up, random).bytes
        })
    };
    [
        lists("what sessions sent", |random| sent(LIST_BYTES, random)),
        of("documents without cookies", plain_documents),
        of("script requests with eight cookies", full_scripts),
        of("requests of every kind", MakeUp::all()),
    ]
}

fn lists(name: &'static str, make: impl Fn(&Random) -> Vec<u8>) -> Workload {
    let list = |case| make(&Random::of_case(SEED, case));
    Workload {
        name,
        lists: (0..LISTS).map(list).collect(),
    }
}

fn row(workload: &Workload, rounds: usize) -> Row {
    let Workload { name, lists } = workload;
    let records = lists.iter().map(|list| records_in(list)).sum::<u32>();
    let mut room = vec![0; LIST_BYTES + SPARE];
    Row {
        name,
        times: take_turns(rounds, [proved as Count, by_hand], |place, count| {
            time(lists, count, &mut room[place..])
        }),
        records: f64::from(records) / lists.len() as f64,
    }
}

fn records_in(list: &[u8]) -> u32 {
    let tally = usage::count(list).expect("the list is one of requests");
    tally.all_records
}

/// The mean over the lists, each put where it is counted before.
fn time(lists: &[Vec<u8>], count: Count, room: &mut [u8]) -> f64 {
    let one = |list: &Vec<u8>| {
        let lent = &mut room[..list.len()];
        lent.copy_from_slice(list);
        let start = Instant::now();
        count(lent);
        start.elapsed().as_nanos() as f64
    };
    lists.iter().map(one).sum::<f64>() / lists.len() as f64
}
