//! A session that the reference goes through, so that each record can be made for the state that the last one left.

use crate::labels::OUTPUT_BYTES;
use crate::random::Random;
use crate::setting::Setting;
use crate::state::make_empty;

/// Makes a record for a state.
pub type MakeRecord = fn(&Setting, &[u32], &mut Vec<u8>, &Random);

pub struct Session {
    pub setting: Setting,
    pub state: Vec<u32>,
    out: [u8; OUTPUT_BYTES],
}

impl Session {
    /// From the empty state.
    pub fn start(setting: Setting) -> Session {
        let mut state = Vec::new();
        make_empty(&mut state);
        Session {
            setting,
            state,
            out: [0; OUTPUT_BYTES],
        }
    }

    /// The next record; it is not fed.
    pub fn record(&self, make: MakeRecord, random: &Random) -> Vec<u8> {
        let mut record = Vec::new();
        make(&self.setting, &self.state, &mut record, random);
        record
    }

    /// Feeds a record. What it sent.
    pub fn feed(&mut self, record: &[u8]) -> &[u8] {
        let Setting {
            policy, scripts, ..
        } = &self.setting;
        let answer = reference::feed(policy, scripts, &mut self.state, record, &mut self.out);
        &self.out[..answer.bytes as usize]
    }
}
