//! The buffers that a call is lent, each with guards of its own.

use cases::guarded::Guarded;
use cases::{Call, Random};

/// The five buffers of a call.
#[derive(Clone, Default)]
pub struct Buffers {
    pub policy: Guarded<u32>,
    pub scripts: Guarded<u8>,
    pub state: Guarded<u32>,
    pub record: Guarded<u8>,
    pub out: Guarded<u8>,
}

impl Buffers {
    pub fn lay(&mut self, call: &Call, random: &Random) {
        if random.one_in(32) {
            self.policy.lay_bare(&call.policy);
            self.scripts.lay_bare(&call.scripts);
            self.state.lay_bare(&call.state);
            self.record.lay_bare(&call.record);
            self.out.lay_bare(&call.out);
            return;
        }
        self.policy.lay(&call.policy, random);
        self.scripts.lay(&call.scripts, random);
        self.state.lay(&call.state, random);
        self.record.lay(&call.record, random);
        self.out.lay(&call.out, random);
    }

    pub fn copy(&mut self, from: &Buffers) {
        self.policy.copy(&from.policy);
        self.scripts.copy(&from.scripts);
        self.record.copy(&from.record);
        self.copy_written(from);
    }

    /// Only what a monitor writes.
    pub fn copy_written(&mut self, from: &Buffers) {
        self.state.copy(&from.state);
        self.out.copy(&from.out);
    }
}
