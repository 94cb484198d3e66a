//! The counts of a rule's pairs, and the table that a test ends with.

use cases::events::{self, Counted};

use crate::case::Case;
use crate::compare::{compare, side_by_side, Difference};
use crate::events::{Event, Seen};
use crate::notes::Notes;
use crate::rule::Rule;
use crate::run::Monitor;

pub struct Tally<'a> {
    pub rule: &'a dyn Rule,
    pairs: u64,
    records: u64,
    accepted: u64,
    seen: Seen,
}

impl<'a> Tally<'a> {
    pub fn new(rule: &'a dyn Rule) -> Tally<'a> {
        Tally {
            rule,
            pairs: 0,
            records: 0,
            accepted: 0,
            seen: Seen::new(),
        }
    }

    /// Makes a case of its rule and compares; where nothing differs, counts what came of it.
    pub fn check(&mut self, monitor: &Monitor, seed: u64, case: u64) -> Result<(), Difference> {
        let case = Case::make(self.rule, monitor, seed, case);
        let pairs = side_by_side(&case);
        compare(&case.scope, &pairs)?;
        let mut notes = Notes {
            scope: &case.scope,
            seen: &mut self.seen,
        };
        notes.note(&case, &pairs);
        self.pairs += 1;
        for fed in case.lists.iter().flatten() {
            self.records += 1;
            self.accepted += u64::from(fed.is_accepted());
        }
        Ok(())
    }

    /// The events that its rule has.
    fn events(&self) -> Vec<Counted> {
        let lacking = self.rule.lacks();
        let own = Event::ALL.into_iter().filter(|of| !lacking.contains(of));
        own.map(|event| (event.name(), self.seen.count(event)))
            .collect()
    }

    pub fn has_seen_all(&self) -> bool {
        events::never_seen(&self.events()).is_empty()
    }

    pub fn progress(&self) -> String {
        let never = events::never_seen(&self.events()).len();
        let (name, pairs) = (self.rule.name(), self.pairs);
        format!("{name}: {pairs} pairs, {never} events not seen yet")
    }

    pub fn print(&self) {
        println!("{}", self.rule.name());
        println!("pairs            {:>12}", self.pairs);
        println!("records          {:>12}", self.records);
        println!("accepted         {:>12}", self.accepted);
        events::print(&self.events());
    }
}
