//! What the proved library says, called with words and bytes alone.

use zolherima::{feed, Accepted, Refusal, OUT_BYTES, SCRIPT_BYTES, STATE_WORDS};

/// What one record did.
pub struct Fed {
    pub answer: Result<Accepted, Refusal>,
    pub state: Vec<u32>,
    pub out: Vec<u8>,
}

pub fn empty_state() -> Vec<u32> {
    vec![0; STATE_WORDS]
}

pub fn fed(policy: &[u32], scripts: &[u8], state: &[u32], record: &[u8]) -> Fed {
    let mut state = state.to_vec();
    let mut out = vec![0; OUT_BYTES];
    let answer = feed(policy, scripts, &mut state, record, &mut out);
    out.truncate(answer.map_or(0, |accepted| accepted.bytes));
    Fed { answer, state, out }
}

/// Whether words are refused with number 2: all else that comes before an empty record is as it should be.
pub fn is_refused(policy: &[u32]) -> bool {
    let fed = fed(policy, &[0; SCRIPT_BYTES], &empty_state(), &[]);
    fed.answer == Err(Refusal::PolicyBad)
}
