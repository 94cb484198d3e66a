//! Counts a list by the library and twice by the reference, and compares.

use std::panic::{catch_unwind, AssertUnwindSafe};

use cases::difference::{Difference, Subject};
use cases::guarded::Guarded;
use cases::{events, Random};
use reference::layout::URLS;
use reference::{tally_fast, tally_noting, Tally, TallyEvent, TallySeen};
use zolherima::usage;

/// A counter that is held to the reference.
pub type Counter = Box<dyn Fn(&mut Guarded<u8>) -> Tally>;

/// The proved library. Its binding tells a bad list by its number alone.
pub fn library(list: &mut Guarded<u8>) -> Tally {
    match usage::count(list.inside()) {
        Ok(tally) => Tally {
            number: 0,
            records: tally.records,
            cookies: tally.cookies,
            all_records: tally.all_records,
            all_cookies: tally.all_cookies,
        },
        Err(bad) => Tally {
            number: bad.number(),
            records: [0; URLS],
            cookies: [0; URLS],
            all_records: 0,
            all_cookies: 0,
        },
    }
}

pub struct Checker {
    counter: Counter,
    lent: Guarded<u8>,
    own: Guarded<u8>,
    seen: TallySeen,
}

/// What came of a list.
pub struct Counted {
    pub expected: Tally,
    /// Nothing where the counter panicked.
    pub found: Option<Tally>,
    pub verdict: Result<(), String>,
}

impl Checker {
    /// Checks the proved library, or what a test puts in its place.
    pub fn new(counter: Counter) -> Checker {
        Checker {
            counter,
            lent: Guarded::default(),
            own: Guarded::default(),
            seen: TallySeen::new(),
        }
    }

    pub fn check(&mut self, list: &[u8], random: &Random) -> Counted {
        self.lay(list, random);
        let expected = tally_noting(list, &mut self.seen);
        let Checker { counter, own, .. } = self;
        // One that panics has failed too, and its list is wanted.
        let found = catch_unwind(AssertUnwindSafe(|| counter(own))).ok();
        let verdict = match &found {
            Some(found) => self.compare(&expected, found).map_err(|d| d.to_string()),
            None => Err("library: panicked".to_string()),
        };
        Counted {
            expected,
            found,
            verdict,
        }
    }

    /// In memory of just its length, where valgrind sees a read past its end, or between guards.
    fn lay(&mut self, list: &[u8], random: &Random) {
        if random.one_in(4) {
            self.lent.lay_bare(list);
        } else {
            self.lent.lay(list, random);
        }
        self.own.copy(&self.lent);
    }

    fn compare(&self, expected: &Tally, found: &Tally) -> Result<(), Difference> {
        let library = Subject("library");
        same(library, expected, found)?;
        library.kept("list", &self.lent, &self.own)?;
        let fast = tally_fast(self.lent.inside());
        same(Subject("fast reference"), expected, &fast)
    }

    /// Every event, and how often it was seen.
    pub fn events(&self) -> Vec<events::Counted> {
        let counted = |event: TallyEvent| (event.name(), self.seen.count(event));
        TallyEvent::ALL.into_iter().map(counted).collect()
    }
}

fn same(subject: Subject, expected: &Tally, found: &Tally) -> Result<(), Difference> {
    let one = |what, expected, found| subject.gave(what, &[expected], &[found]);
    one("number", expected.number, found.number)?;
    subject.gave("records", &expected.records, &found.records)?;
    subject.gave("cookies", &expected.cookies, &found.cookies)?;
    one("all records", expected.all_records, found.all_records)?;
    one("all cookies", expected.all_cookies, found.all_cookies)
}
