//! How what was found is held to what was expected, and how a difference is told.

use std::fmt;

use crate::guarded::{Element, Guarded};

/// The first thing that is not as it should be.
#[derive(Clone, Debug, PartialEq, Eq)]
pub struct Difference {
    pub subject: &'static str,
    /// Which part of `what`, in words; empty where it is the thing itself.
    pub part: &'static str,
    pub what: &'static str,
    pub index: Option<usize>,
    pub expected: u64,
    pub found: u64,
}

impl fmt::Display for Difference {
    fn fmt(&self, to: &mut fmt::Formatter<'_>) -> fmt::Result {
        write!(to, "{}: {}{}", self.subject, self.part, self.what)?;
        if let Some(index) = self.index {
            write!(to, " at {index}")?;
        }
        write!(
            to,
            ": expected {:#x}, found {:#x}",
            self.expected, self.found
        )
    }
}

const ITSELF: &str = "";
const FRONT: &str = "guard before the ";
const BACK: &str = "guard behind the ";

/// One that is held to what it should do, by its name.
#[derive(Clone, Copy)]
pub struct Subject(pub &'static str);

impl Subject {
    /// Something that it gave or left.
    pub fn gave<T: Element>(
        self,
        what: &'static str,
        expected: &[T],
        found: &[T],
    ) -> Result<(), Difference> {
        self.gave_part(ITSELF, what, expected, found)
    }

    pub fn gave_part<T: Element>(
        self,
        part: &'static str,
        what: &'static str,
        expected: &[T],
        found: &[T],
    ) -> Result<(), Difference> {
        if expected == found {
            return Ok(());
        }
        let mut pairs = expected.iter().zip(found);
        let place = pairs.position(|(a, b)| a != b);
        // Equal as far as both go: then the lengths differ.
        let lengths = (expected.len() as u64, found.len() as u64);
        let values = place.map_or(lengths, |at| (expected[at].into(), found[at].into()));
        Err(Difference {
            subject: self.0,
            part,
            what,
            index: place.filter(|_| expected.len() > 1),
            expected: values.0,
            found: values.1,
        })
    }

    /// What it may only read is unchanged, and what lies around it.
    pub fn kept<T: Element>(
        self,
        what: &'static str,
        before: &Guarded<T>,
        after: &Guarded<T>,
    ) -> Result<(), Difference> {
        self.gave(what, before.inside(), after.inside())?;
        self.kept_guards(what, before, after)
    }

    /// What lies around a buffer is unchanged.
    pub fn kept_guards<T: Element>(
        self,
        what: &'static str,
        before: &Guarded<T>,
        after: &Guarded<T>,
    ) -> Result<(), Difference> {
        self.gave_part(FRONT, what, before.before(), after.before())?;
        self.gave_part(BACK, what, before.behind(), after.behind())
    }
}
