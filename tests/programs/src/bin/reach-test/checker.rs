//! Counts a policy by the library and twice by the reference, asks for cells of the table, and compares.

use std::panic::{catch_unwind, AssertUnwindSafe};

use cases::difference::{Difference, Subject};
use cases::guarded::Guarded;
use cases::{events, Random};
use reference::layout::{CONNECTIONS, URLS};
use reference::numbers::ACCEPTED;
use reference::{
    reach_count_fast, reach_fits_noting, reach_noting, Event, Reach, ReachEvent, ReachSeen, Seen,
};
use zolherima::reach_table;

/// A policy, as it is lent.
pub type Lent = Guarded<u32>;

pub type Count = Box<dyn Fn(&mut Lent) -> Reach>;
/// Of a connection and a URL.
pub type Fits = Box<dyn Fn(&mut Lent, u32, u32) -> bool>;

/// What is held to the reference: the counts of a table, and its cells.
pub struct Table {
    pub count: Count,
    pub fits: Fits,
}

/// The proved library. Its binding tells a refusal by its number alone.
pub fn library() -> Table {
    Table {
        count: Box::new(|lent| match reach_table::count(lent.inside()) {
            Ok(reach_table::Table { urls, all }) => Reach {
                number: ACCEPTED,
                urls,
                all,
            },
            Err(refusal) => Reach {
                number: refusal.number(),
                urls: [0; CONNECTIONS],
                all: 0,
            },
        }),
        fits: Box::new(|lent, connection, url| reach_table::fits(lent.inside(), connection, url)),
    }
}

pub struct Checker {
    table: Table,
    lent: Lent,
    own: Lent,
    seen: ReachSeen,
    clauses: Seen,
}

/// What came of a policy.
pub struct Compared {
    pub expected: Reach,
    /// Nothing where the library panicked.
    pub found: Option<Reach>,
    pub verdict: Result<(), String>,
}

const LIBRARY: Subject = Subject("library");
const PANICKED: &str = "library: panicked";

impl Checker {
    /// Checks the proved library, or what a test puts in its place.
    pub fn new(table: Table) -> Checker {
        Checker {
            table,
            lent: Lent::default(),
            own: Lent::default(),
            seen: ReachSeen::new(),
            clauses: Seen::new(),
        }
    }

    pub fn check(&mut self, policy: &[u32], random: &Random) -> Compared {
        self.lay(policy, random);
        let expected = reach_noting(policy, &mut self.seen, &mut self.clauses);
        let Checker { table, own, .. } = self;
        // One that panics has failed too, and its policy is wanted.
        let found = catch_unwind(AssertUnwindSafe(|| (table.count)(own))).ok();
        let compared = match &found {
            Some(found) => self.compare(policy, &expected, found),
            None => Err(PANICKED.to_string()),
        };
        Compared {
            expected,
            found,
            verdict: compared.and_then(|()| self.check_cells(policy, &cells(random))),
        }
    }

    /// In memory of just its length, where valgrind sees a read past its end, or between guards.
    fn lay(&mut self, policy: &[u32], random: &Random) {
        match random.one_in(4) {
            true => self.lent.lay_bare(policy),
            false => self.lent.lay(policy, random),
        }
        self.own.copy(&self.lent);
    }

    fn compare(&self, policy: &[u32], expected: &Reach, found: &Reach) -> Result<(), String> {
        let fast = reach_count_fast(policy);
        same(LIBRARY, expected, found)
            .and_then(|()| LIBRARY.kept("policy", &self.lent, &self.own))
            .and_then(|()| same(Subject("fast reference"), expected, &fast))
            .map_err(|difference| difference.to_string())
    }

    /// Asks whether connections fit URLs.
    fn check_cells(&mut self, policy: &[u32], cells: &[(u32, u32)]) -> Result<(), String> {
        for &(connection, url) in cells {
            let expected = reach_fits_noting(policy, connection, url, &mut self.seen);
            let fits = || (self.table.fits)(&mut self.own, connection, url);
            let found = catch_unwind(AssertUnwindSafe(fits)).map_err(|_| PANICKED)?;
            if found != expected {
                let cell = format!("connection {connection} and URL {url}");
                return Err(format!(
                    "library: fits of {cell}: expected {expected}, found {found}"
                ));
            }
        }
        let kept = LIBRARY.kept("policy", &self.lent, &self.own);
        kept.map_err(|difference| difference.to_string())
    }

    /// Every event, and how often it was seen.
    pub fn events(&self) -> Vec<events::Counted> {
        let clause = |event: Event| (event.name(), self.clauses.count(event));
        let event = |event: ReachEvent| (event.name(), self.seen.count(event));
        let clauses = Event::policy_clauses().map(clause);
        clauses.chain(ReachEvent::ALL.map(event)).collect()
    }
}

fn same(subject: Subject, expected: &Reach, found: &Reach) -> Result<(), Difference> {
    subject.gave("number", &[expected.number], &[found.number])?;
    subject.gave("count", &expected.urls, &found.urls)?;
    subject.gave("total", &[expected.all], &[found.all])
}

/// How many cells are asked for, where it is not all.
const SOME: usize = 8;

/// All of the table now and then, for it takes as long as many counts, or some; and some that no table has.
fn cells(random: &Random) -> Vec<(u32, u32)> {
    let any = || (random.below(CONNECTIONS) as u32, random.below(URLS) as u32);
    let all = |connection| (0..URLS as u32).map(move |url| (connection, url));
    let mut cells: Vec<_> = match random.one_in(64) {
        true => (0..CONNECTIONS as u32).flat_map(all).collect(),
        false => (0..SOME).map(|_| any()).collect(),
    };
    cells.extend((0..SOME).map(|_| {
        let (connection, url) = any();
        let beyond_connection = beyond(connection, CONNECTIONS as u32, random);
        let beyond_url = beyond(url, URLS as u32, random);
        random.pick(&[
            (beyond_connection, url),
            (connection, beyond_url),
            (beyond_connection, beyond_url),
        ])
    }));
    cells
}

/// A number that is not below a power of two: a border of what there is, or one with the lowest bits of a number that is below.
fn beyond(number: u32, bound: u32, random: &Random) -> u32 {
    let above = number | 1 << random.within(bound.trailing_zeros() as usize..=31);
    random.pick(&[bound, 255, 256, u32::MAX, above, above, above])
}
