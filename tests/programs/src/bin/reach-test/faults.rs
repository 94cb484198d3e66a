//! The test can fail: tables with a single fault each are told.

use cases::guarded::{flip, Guarded};
use cases::labels::{
    partner, upgraded, within, Connection, Url, CONNECTIONS, ENTRY, POLICY_WORDS, URLS,
};
use programs::program::Program;
use programs::wrong::UNCHECKED;
use programs::{suite, Kind as _};
use reference::numbers::{ACCEPTED, POLICY_BAD};
use reference::{reach_count, reach_fits, Reach};

use crate::checker::{self, Lent, Table};
use crate::input::Kind;
use crate::Tables;

/// The first difference that a few cases find.
pub fn first_difference(table: Table, program: Option<Program>) -> Option<String> {
    let mut tables = Tables::new(table, program);
    suite::first_difference(&mut tables, 8 * Kind::CYCLE).expect("the program can be run")
}

pub fn honest() -> Table {
    Table {
        count: Box::new(|lent| reach_count(lent.inside())),
        fits: Box::new(|lent, connection, url| reach_fits(lent.inside(), connection, url)),
    }
}

/// A table whose counts alone are wrong, and one whose cells alone are.
fn counting(count: impl Fn(&mut Lent) -> Reach + 'static) -> Table {
    Table {
        count: Box::new(count),
        ..honest()
    }
}

fn fitting(fits: impl Fn(&mut Lent, u32, u32) -> bool + 'static) -> Table {
    Table {
        fits: Box::new(fits),
        ..honest()
    }
}

fn assert_told(table: Table, what: &str) {
    let told = first_difference(table, None).expect("the fault is found");
    assert!(told.starts_with(&format!("library: {what}")), "{told}");
}

/// Of a table that is changed where the policy is not refused. Claims, which are asked first, may tell it too.
fn assert_change_told(change: fn(&mut Reach), what: &str) {
    let table = counting(move |lent| {
        let mut reach = reach_count(lent.inside());
        if reach.number == ACCEPTED {
            change(&mut reach);
        }
        reach
    });
    let told = first_difference(table, None).expect("the fault is found");
    let told = told.strip_prefix("library: ").expect("the library is told");
    assert!(
        told.starts_with(what) || told.starts_with("claim"),
        "{told}"
    );
}

/// A place of a table: a connection, a row as it stands, and what the row is replaced by.
#[derive(Clone, Copy)]
pub struct Cell {
    connection: Connection,
    url: Url,
    replaced: Url,
    /// Whether the row is replaced by another one.
    has_partner: bool,
    /// The numbers of connection and row.
    place: [u8; 2],
}

impl Cell {
    fn of(policy: &[u32], connection: u8, url: u8) -> Cell {
        Cell {
            connection: Connection::of(policy, connection),
            url: Url::of(policy, url),
            replaced: Url::of(policy, upgraded(policy, url)),
            has_partner: partner(policy, url).is_some(),
            place: [connection, url],
        }
    }

    fn fits(self) -> bool {
        self.connection.fits(self.url)
    }

    fn readers_fit(self) -> bool {
        within(self.connection.readers, self.url.readers)
    }

    fn writers_fit(self) -> bool {
        within(self.url.message(), self.connection.writers)
    }

    fn is_empty(self) -> bool {
        !self.url.exists()
    }
}

/// Another reading of which cells are counted, by what is wrong about it.
pub type Reading = (&'static str, fn(Cell) -> bool);

pub const READINGS: [Reading; 24] = [
    ("rows are replaced", |it| it.connection.fits(it.replaced)),
    ("rows are asked with their partners", |it| {
        it.fits() && it.connection.fits(it.replaced)
    }),
    ("rows are asked or their partners", |it| {
        it.fits() || it.connection.fits(it.replaced)
    }),
    ("rows with a partner are left out", |it| {
        it.fits() && !it.has_partner
    }),
    ("empty rows are counted", |it| it.is_empty() || it.fits()),
    ("empty rows are counted where they seem to fit", |it| {
        it.readers_fit() && it.writers_fit()
    }),
    ("empty rows are counted without readers", |it| {
        it.fits() || it.is_empty() && it.connection.readers == 0
    }),
    ("readers are asked the wrong way round", |it| {
        let is_within = within(it.url.readers, it.connection.readers);
        !it.is_empty() && is_within && it.writers_fit()
    }),
    ("readers are equal", |it| {
        it.fits() && it.connection.readers == it.url.readers
    }),
    ("readers share one", |it| {
        let is_shared = it.url.readers & it.connection.readers != 0;
        !it.is_empty() && is_shared && it.writers_fit()
    }),
    ("readers are not asked", |it| {
        !it.is_empty() && it.writers_fit()
    }),
    ("reader 0 is not asked", |mut it| {
        it.url.readers |= 1;
        it.fits()
    }),
    ("reader 31 is not asked", |mut it| {
        it.url.readers |= 1 << 31;
        it.fits()
    }),
    ("script readers stand for readers", |mut it| {
        it.connection.readers = it.connection.script_readers;
        it.fits()
    }),
    ("writers are not asked", |it| {
        !it.is_empty() && it.readers_fit()
    }),
    ("the event endpoint stands for the message endpoint", |it| {
        let is_within = within(it.url.event(), it.connection.writers);
        !it.is_empty() && it.readers_fit() && is_within
    }),
    ("the event endpoint is asked too", |it| {
        it.fits() && within(it.url.event(), it.connection.readers)
    }),
    ("the URL's writers are asked", |it| {
        it.fits() && within(it.connection.writers, it.url.writers)
    }),
    ("it is asked as of a redirect", |it| {
        it.connection.redirects_to(it.url)
    }),
    ("entries are left out", |it| it.fits() && !it.url.is_entry()),
    ("entries fit", |it| it.fits() || it.url.is_entry()),
    ("entries are read as https", |mut it| {
        it.url.word %= ENTRY + 16;
        it.fits()
    }),
    ("URL 63 is left out", |it| it.fits() && it.place[1] != 63),
    ("connection 31 is left out", |it| {
        it.fits() && it.place[0] != 31
    }),
];

/// The table of a policy that is well formed, by another reading.
pub fn read(policy: &[u32], fits: fn(Cell) -> bool) -> Reach {
    let mut urls = [0; CONNECTIONS];
    for (connection, count) in urls.iter_mut().enumerate() {
        let cells = (0..URLS as u8).map(|url| Cell::of(policy, connection as u8, url));
        *count = cells.filter(|&cell| fits(cell)).count() as u32;
    }
    Reach {
        number: ACCEPTED,
        urls,
        all: urls.iter().sum(),
    }
}

/// Counts by another reading what is not refused.
fn misreading(fits: fn(Cell) -> bool) -> Table {
    counting(move |lent| match reach_count(lent.inside()) {
        reach if reach.number == ACCEPTED => read(lent.inside(), fits),
        reach => reach,
    })
}

/// Answers by another reading for what is a place of a table.
fn misfitting(fits: fn(Cell) -> bool) -> Table {
    fitting(move |lent, connection, url| {
        let policy = lent.inside();
        let is_place = connection < CONNECTIONS as u32 && url < URLS as u32;
        match is_place && reach_count(policy).number == ACCEPTED {
            true => fits(Cell::of(policy, connection as u8, url as u8)),
            false => reach_fits(policy, connection, url),
        }
    })
}

#[test]
fn honest_tables_are_passed() {
    assert_eq!(first_difference(honest(), None), None);
    assert_eq!(first_difference(checker::library(), None), None);
    assert_eq!(first_difference(misreading(Cell::fits), None), None);
    assert_eq!(first_difference(misfitting(Cell::fits), None), None);
}

#[test]
fn another_reading_is_told() {
    for (what, fits) in READINGS {
        let told = first_difference(misreading(fits), None);
        let told = told.unwrap_or_else(|| panic!("{what}: the counts are passed"));
        let is_count = ["library: count", "library: claim"].map(|it| told.starts_with(it));
        assert!(is_count.contains(&true), "{what}: {told}");
        let told = first_difference(misfitting(fits), None);
        let told = told.unwrap_or_else(|| panic!("{what}: the cells are passed"));
        assert!(told.starts_with("library: fits"), "{what}: {told}");
    }
}

#[test]
fn a_wrong_total_is_told() {
    let totals: [fn(&mut Reach); 6] = [
        |reach| reach.all -= reach.urls[31],
        |reach| reach.all -= reach.urls[0],
        |reach| reach.all %= (CONNECTIONS * URLS) as u32,
        |reach| reach.all %= 256,
        |reach| reach.all = reach.urls.into_iter().max().unwrap_or(0),
        |reach| reach.all = reach.urls.iter().filter(|count| **count > 0).count() as u32,
    ];
    for change in totals {
        assert_change_told(change, "total");
    }
}

#[test]
fn a_wrong_count_is_told() {
    let counts: [fn(&mut Reach); 5] = [
        |reach| reach.urls.reverse(),
        |reach| reach.urls.sort(),
        |reach| reach.urls = reach.urls.map(|count| count % 64),
        |reach| reach.urls = reach.urls.map(|count| count.min(1)),
        |reach| reach.urls[31] = 0,
    ];
    for change in counts {
        assert_change_told(change, "count");
    }
}

#[test]
fn a_wrong_number_is_told() {
    let none_is_refused = |reach: &mut Reach| {
        if reach.all == 0 {
            reach.number = POLICY_BAD;
        }
    };
    assert_change_told(none_is_refused, "number");
    let taken = counting(|lent| Reach {
        number: ACCEPTED,
        ..reach_count(lent.inside())
    });
    assert_told(taken, "number");
    let other = counting(|lent| match reach_count(lent.inside()) {
        reach if reach.number == POLICY_BAD => Reach { number: 1, ..reach },
        reach => reach,
    });
    assert_told(other, "number");
    let left = counting(|lent| match reach_count(lent.inside()) {
        reach if reach.number == POLICY_BAD => Reach { all: 1, ..reach },
        reach => reach,
    });
    assert_told(left, "total");
}

#[test]
fn a_policy_that_is_not_checked_is_told() {
    for taken in UNCHECKED {
        assert_told(
            counting(move |lent| reach_count(&taken(lent.inside()))),
            "number",
        );
        let fits = move |lent: &mut Lent, connection, url| {
            reach_fits(&taken(lent.inside()), connection, url)
        };
        assert_told(fitting(fits), "fits");
    }
    let by_its_words = fitting(|lent, connection, url| {
        let policy = lent.inside();
        let is_place = connection < CONNECTIONS as u32 && url < URLS as u32;
        let cell = || Cell::of(policy, connection as u8, url as u8);
        policy.len() == POLICY_WORDS && is_place && cell().fits()
    });
    assert_told(by_its_words, "fits");
}

#[test]
fn a_number_that_is_cut_is_told() {
    let cuts: [fn(&mut [u32; 2]); 5] = [
        |cell| cell[0] %= 32,
        |cell| cell[1] %= 64,
        |cell| *cell = cell.map(|number| number % 256),
        |cell| cell[0] = cell[0].min(31),
        |cell| cell[1] = cell[1].min(63),
    ];
    for cut in cuts {
        let fits = move |lent: &mut Lent, connection, url| {
            let mut cell = [connection, url];
            cut(&mut cell);
            reach_fits(lent.inside(), cell[0], cell[1])
        };
        assert_told(fitting(fits), "fits");
    }
}

/// A table that answers right, and then does something more.
fn assert_spoiling_told(spoil: fn(&mut Lent), what: &str) {
    let count = move |lent: &mut Lent| {
        let reach = reach_count(lent.inside());
        spoil(lent);
        reach
    };
    assert_told(counting(count), what);
    let fits = move |lent: &mut Lent, connection, url| {
        let fits = reach_fits(lent.inside(), connection, url);
        if url == 255 {
            spoil(lent);
        }
        fits
    };
    assert_told(fitting(fits), what);
}

#[test]
fn a_touched_policy_and_a_broken_guard_are_told() {
    assert_spoiling_told(|lent| flip(lent.inside_mut().last_mut()), "policy");
    assert_spoiling_told(Guarded::flip_before, "guard before the policy");
    assert_spoiling_told(Guarded::flip_behind, "guard behind the policy");
}

#[test]
fn a_panic_is_told() {
    assert_told(counting(|_| panic!("as it should")), "panicked");
    assert_told(fitting(|_, _, _| panic!("as it should")), "panicked");
}
