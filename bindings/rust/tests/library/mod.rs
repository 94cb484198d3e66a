//! What the library says of a policy.

use zolherima::{feed, Refusal, OUT_BYTES};

/// Whether it answers 2. The script table is asked next, and has the wrong length.
pub fn is_refused(policy: &[u32]) -> bool {
    match feed(policy, &[], &mut [], &[], &mut [0; OUT_BYTES]) {
        Err(Refusal::PolicyBad) => true,
        Err(Refusal::ScriptsBad) => false,
        other => panic!("{other:?}"),
    }
}
