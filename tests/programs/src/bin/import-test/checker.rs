//! Reads a line by the library and twice by the reference, and compares.

use std::panic::{catch_unwind, AssertUnwindSafe};

use cases::difference::{Difference, Subject};
use cases::guarded::Guarded;
use cases::line::Given;
use cases::{events, Random};
use reference::{import_fast, import_noting, ImportEvent, ImportSeen, Imported};
use zolherima::cookie;

/// Names and line, as they are lent.
#[derive(Default)]
pub struct Lent {
    pub names: Guarded<u8>,
    pub text: Guarded<u8>,
}

/// An importer that is held to the reference.
pub type Importer = Box<dyn Fn(u32, &mut Lent) -> Imported>;

/// The proved library. Its binding tells a refusal by its number alone.
pub fn library(host: u32, lent: &mut Lent) -> Imported {
    match cookie::import(host, lent.names.inside(), lent.text.inside()) {
        Ok(cookie) => Imported {
            number: 0,
            key: cookie.key,
            value: cookie.value,
            secure: cookie.secure,
            http_only: cookie.http_only,
            readers: cookie.readers,
        },
        Err(refusal) => Imported {
            number: refusal.number(),
            key: 0,
            value: 0,
            secure: false,
            http_only: false,
            readers: 0,
        },
    }
}

pub struct Checker {
    importer: Importer,
    lent: Lent,
    own: Lent,
    seen: ImportSeen,
}

/// What came of a line.
pub struct Compared {
    pub expected: Imported,
    /// Nothing where the importer panicked.
    pub found: Option<Imported>,
    pub verdict: Result<(), String>,
}

impl Checker {
    /// Checks the proved library, or what a test puts in its place.
    pub fn new(importer: Importer) -> Checker {
        Checker {
            importer,
            lent: Lent::default(),
            own: Lent::default(),
            seen: ImportSeen::new(),
        }
    }

    pub fn check(&mut self, given: &Given, random: &Random) -> Compared {
        self.lay(given, random);
        let expected = import_noting(given.host, &given.names, &given.text, &mut self.seen);
        let Checker { importer, own, .. } = self;
        // One that panics has failed too, and its line is wanted.
        let found = catch_unwind(AssertUnwindSafe(|| importer(given.host, own))).ok();
        let verdict = match &found {
            Some(found) => self
                .compare(given, &expected, found)
                .map_err(|difference| difference.to_string()),
            None => Err("library: panicked".to_string()),
        };
        Compared {
            expected,
            found,
            verdict,
        }
    }

    /// In memory of just their lengths, where valgrind sees a read past an end, or between guards.
    fn lay(&mut self, given: &Given, random: &Random) {
        let Lent { names, text } = &mut self.lent;
        if random.one_in(4) {
            names.lay_bare(&given.names);
            text.lay_bare(&given.text);
        } else {
            names.lay(&given.names, random);
            text.lay(&given.text, random);
        }
        self.own.names.copy(&self.lent.names);
        self.own.text.copy(&self.lent.text);
    }

    fn compare(
        &self,
        given: &Given,
        expected: &Imported,
        found: &Imported,
    ) -> Result<(), Difference> {
        let library = Subject("library");
        same(library, expected, found)?;
        library.kept("names", &self.lent.names, &self.own.names)?;
        library.kept("line", &self.lent.text, &self.own.text)?;
        let fast = import_fast(given.host, &given.names, &given.text);
        same(Subject("fast reference"), expected, &fast)
    }

    /// Every event, and how often it was seen.
    pub fn events(&self) -> Vec<events::Counted> {
        let counted = |event: ImportEvent| (event.name(), self.seen.count(event));
        ImportEvent::ALL.into_iter().map(counted).collect()
    }
}

fn same(subject: Subject, expected: &Imported, found: &Imported) -> Result<(), Difference> {
    let one = |what, expected: u32, found: u32| subject.gave(what, &[expected], &[found]);
    one("number", expected.number, found.number)?;
    one("key", expected.key, found.key)?;
    one("value", expected.value, found.value)?;
    one("secure", expected.secure.into(), found.secure.into())?;
    one(
        "http_only",
        expected.http_only.into(),
        found.http_only.into(),
    )?;
    one("readers", expected.readers, found.readers)
}
