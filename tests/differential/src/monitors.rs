//! The monitors that are compared, each over the five buffers.

use reference::layout::NONE_MISSING;
use reference::{Answer, Seen};
use zolherima::Endpoint;

use crate::buffers::Buffers;

/// The proved library. Its binding tells a refusal by its number alone, and the endpoint that is missing where labels forbid the record.
pub fn library(buffers: &mut Buffers) -> Answer {
    let fed = zolherima::feed(
        buffers.policy.inside(),
        buffers.scripts.inside(),
        buffers.state.inside_mut(),
        buffers.record.inside(),
        buffers.out.inside_mut(),
    );
    match fed {
        Ok(accepted) => Answer {
            number: 0,
            bytes: u32::try_from(accepted.bytes).expect("the count is one of 32 bits"),
            steps: accepted.steps,
            missing: NONE_MISSING,
        },
        Err(refusal) => Answer {
            number: refusal.number(),
            bytes: 0,
            steps: 0,
            missing: refusal.missing().map_or(NONE_MISSING, Endpoint::number),
        },
    }
}

/// The reference cannot write what it only reads: that is `lent` itself, and only state and output are its own.
pub fn reference(lent: &Buffers, own: &mut Buffers, seen: &mut Seen) -> Answer {
    reference::feed_noting(
        lent.policy.inside(),
        lent.scripts.inside(),
        own.state.inside_mut(),
        lent.record.inside(),
        own.out.inside_mut(),
        seen,
    )
}

pub fn fast(lent: &Buffers, own: &mut Buffers) -> Answer {
    reference::feed_fast(
        lent.policy.inside(),
        lent.scripts.inside(),
        own.state.inside_mut(),
        lent.record.inside(),
        own.out.inside_mut(),
    )
}
