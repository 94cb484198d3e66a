//! Feeds a call to all three monitors, each on its own copy of the buffers, and compares.

use cases::difference::Difference;
use cases::{Call, Random};
use reference::{Answer, Seen};

use crate::buffers::Buffers;
use crate::difference::Outcome;
use crate::monitors;

/// A monitor that is held to the reference.
pub type Monitor = Box<dyn Fn(&mut Buffers) -> Answer>;

pub struct Checker {
    monitor: Monitor,
    lent: Buffers,
    library: Outcome,
    reference: Outcome,
    fast: Outcome,
    pub seen: Seen,
}

impl Checker {
    /// Checks the proved library, or what a test puts in its place.
    pub fn new(monitor: Monitor) -> Checker {
        Checker {
            monitor,
            lent: Buffers::default(),
            library: Outcome::of("library"),
            reference: Outcome::of("reference"),
            fast: Outcome::of("fast reference"),
            seen: Seen::new(),
        }
    }

    /// Feeds a call and compares; leaves in it the state after.
    pub fn check(&mut self, call: &mut Call, random: &Random) -> Result<Answer, Difference> {
        self.feed(call, random);
        self.compare()?;
        call.state.clear();
        call.state
            .extend_from_slice(self.reference.buffers.state.inside());
        Ok(self.reference.answer)
    }

    fn feed(&mut self, call: &Call, random: &Random) {
        let Checker { lent, seen, .. } = self;
        lent.lay(call, random);
        self.library.buffers.copy(lent);
        self.reference.buffers.copy_written(lent);
        self.fast.buffers.copy_written(lent);
        self.library.answer = (self.monitor)(&mut self.library.buffers);
        self.reference.answer = monitors::reference(lent, &mut self.reference.buffers, seen);
        self.fast.answer = monitors::fast(lent, &mut self.fast.buffers);
    }

    fn compare(&self) -> Result<(), Difference> {
        self.library.same_as(&self.reference)?;
        self.library.kept_what_it_must(&self.lent)?;
        self.fast.same_as(&self.reference)
    }

    /// What came of the last call.
    pub fn outcomes(&self) -> [&Outcome; 3] {
        [&self.library, &self.reference, &self.fast]
    }
}
