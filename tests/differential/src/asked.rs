//! What a record asks for, as far as its buffers tell: for the faults that concern only one of the places where something is asked for.

use cases::labels::{
    partner, Pending, CONNECTIONS, POLICY_WORDS, STATE_WORDS, STEPS, STEP_BYTES, URLS,
};
use cases::record::{
    COOKIES, DOCUMENT_RESPONSE, LOAD, PICTURE_RESPONSE, REDIRECT, SCRIPT_RESPONSE,
};

use crate::buffers::Buffers;

const READ_STEP: u8 = 3;
const WRITE_STEP: u8 = 4;
pub const SEND_STEP: u8 = 5;
pub const PICTURE_STEP: u8 = 7;

pub const RESPONSES: [u8; 3] = [DOCUMENT_RESPONSE, SCRIPT_RESPONSE, PICTURE_RESPONSE];

/// A URL that is asked for.
#[derive(Clone, Copy)]
pub struct Asked {
    /// The map of a load or of a redirect, or the op of a step.
    pub place: u8,
    pub row: u8,
    pub connection: u8,
}

/// The map of the record, cookies aside; 0 where it is empty.
pub fn map(buffers: &Buffers) -> u8 {
    buffers.record.inside().first().unwrap_or(&0) & !COOKIES
}

/// The connection that the record names, if it is there.
pub fn connection(buffers: &Buffers) -> Option<u8> {
    let connection = *buffers.record.inside().get(2)?;
    (usize::from(connection) < CONNECTIONS).then_some(connection)
}

/// The number of a load's URL or of a redirect's target: where it stands in the record, if it is there.
pub fn request_at(buffers: &Buffers) -> Option<usize> {
    let record = buffers.record.inside();
    let place = match map(buffers) {
        LOAD => 1,
        REDIRECT => record.len() - 1,
        _ => return None,
    };
    (place < record.len()).then_some(place)
}

/// The partner of a row, where the policy has its length and both numbers are below 64.
pub fn partner_of(buffers: &Buffers, url: u8) -> Option<u8> {
    let policy = buffers.policy.inside();
    match policy.len() == POLICY_WORDS && usize::from(url) < URLS {
        true => partner(policy, url).filter(|&url| usize::from(url) < URLS),
        false => None,
    }
}

/// What waits on the connection that the record names.
pub fn pending(buffers: &Buffers) -> Option<Pending> {
    let state = buffers.state.inside();
    let connection = connection(buffers)?;
    (state.len() == STATE_WORDS).then(|| Pending::of(state, connection))
}

/// The steps of the script that a response runs.
fn steps(buffers: &Buffers) -> &[u8] {
    let script = match (map(buffers), pending(buffers)) {
        (DOCUMENT_RESPONSE, _) => buffers.record.inside().last().copied(),
        (SCRIPT_RESPONSE, Some(pending)) => Some(pending.handler),
        _ => None,
    };
    let mut scripts = buffers.scripts.inside().chunks_exact(STEPS * STEP_BYTES);
    let steps = script.and_then(|script| scripts.nth(script.into()));
    steps.unwrap_or_default()
}

/// Whether the script reads or writes cookies.
pub fn works_on_cookies(buffers: &Buffers) -> bool {
    let mut steps = steps(buffers).chunks_exact(STEP_BYTES);
    steps.any(|step| [READ_STEP, WRITE_STEP].contains(&step[0]))
}

pub fn asked(buffers: &Buffers) -> Vec<Asked> {
    if let (Some(at), Some(connection)) = (request_at(buffers), connection(buffers)) {
        let (place, row) = (map(buffers), buffers.record.inside()[at]);
        return vec![Asked {
            place,
            row,
            connection,
        }];
    }
    let steps = steps(buffers).chunks_exact(STEP_BYTES);
    let requests = steps.filter(|step| [SEND_STEP, PICTURE_STEP].contains(&step[0]));
    let asked = requests.map(|step| Asked {
        place: step[0],
        row: step[1],
        connection: step[2],
    });
    asked.collect()
}
