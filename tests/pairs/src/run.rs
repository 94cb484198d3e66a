//! A run: records that are fed one after another, from the empty state.

use cases::labels::{OUTPUT_BYTES, STATE_WORDS};
use cases::record::Fields;
use cases::Random;

use crate::record::read_requests;

/// The state that every run starts from.
pub const EMPTY: [u32; STATE_WORDS] = [0; STATE_WORDS];

/// Feeds a record, lent policy, script table, state, record and output: how many bytes were written, or the number of the refusal.
pub type Monitor = dyn Fn(&[u32], &[u8], &mut [u32], &[u8], &mut [u8]) -> Result<usize, u32>;

/// The proved library.
pub fn library(
    policy: &[u32],
    scripts: &[u8],
    state: &mut [u32],
    record: &[u8],
    out: &mut [u8],
) -> Result<usize, u32> {
    match zolherima::feed(policy, scripts, state, record, out) {
        Ok(accepted) => Ok(accepted.bytes),
        Err(refusal) => Err(refusal.number()),
    }
}

/// A record that was fed, and what came of it.
pub struct Fed {
    pub record: Vec<u8>,
    /// The length of its output.
    pub room: usize,
    /// 0, or the number of the refusal.
    pub number: u32,
    pub requests: Vec<Fields>,
    /// The state after.
    pub state: Vec<u32>,
}

impl Fed {
    pub fn is_accepted(&self) -> bool {
        self.number == 0
    }
}

pub struct Run<'a> {
    monitor: &'a Monitor,
    policy: &'a [u32],
    scripts: &'a [u8],
    pub state: Vec<u32>,
    out: Vec<u8>,
    pub fed: Vec<Fed>,
}

impl<'a> Run<'a> {
    pub fn start(monitor: &'a Monitor, policy: &'a [u32], scripts: &'a [u8]) -> Run<'a> {
        Run {
            monitor,
            policy,
            scripts,
            state: EMPTY.to_vec(),
            out: Vec::new(),
            fed: Vec::new(),
        }
    }

    /// Feeds the next record, with an output that is long enough, whatever it holds.
    pub fn feed(&mut self, record: Vec<u8>, random: &Random) {
        let more = random.pick(&[0, 0, 1, random.below(400)]);
        self.out.resize(OUTPUT_BYTES + more, 0);
        random.fill_bytes(&mut self.out);
        let answer = (self.monitor)(
            self.policy,
            self.scripts,
            &mut self.state,
            &record,
            &mut self.out,
        );
        let bytes = answer.unwrap_or(0);
        let requests = read_requests(&self.out[..bytes]);
        self.fed.push(Fed {
            record,
            room: self.out.len(),
            number: answer.err().unwrap_or(0),
            requests: requests.expect("the counted output is a list of requests"),
            state: self.state.clone(),
        });
    }
}
