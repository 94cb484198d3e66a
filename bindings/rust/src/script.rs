//! Scripts: what runs when a response comes.

use crate::layout::below;
use crate::{Step, SCRIPTS, SCRIPT_BYTES, STEPS, STEP_BYTES};

const _: () = assert!(SCRIPTS * STEPS * STEP_BYTES == SCRIPT_BYTES);

/// A script table: 16 scripts of 32 steps.
///
/// ```
/// use zolherima::{Scripts, Step};
///
/// let mut scripts = Scripts::new();
/// let picture = Step::Picture { url: 1, connection: 2 };
/// scripts.set(3, &[picture]).unwrap();
/// assert_eq!(scripts.step(3, 0).map(Step::of), Some(picture));
/// assert_eq!(scripts.step(3, 1).map(Step::of), Some(Step::End));
///
/// // Scripts are 0 to 15 and have at most 32 steps.
/// assert_eq!(scripts.set(16, &[picture]), None);
/// assert_eq!(scripts.set(0, &[picture; 33]), None);
/// ```
#[derive(Clone, Debug, PartialEq, Eq, Hash)]
pub struct Scripts {
    bytes: [u8; SCRIPT_BYTES],
}

impl Scripts {
    /// Scripts that end at once.
    pub const fn new() -> Scripts {
        Scripts {
            bytes: [0; SCRIPT_BYTES],
        }
    }

    /// The table of these bytes; None where they are not [`SCRIPT_BYTES`].
    pub fn from_bytes(bytes: &[u8]) -> Option<Scripts> {
        let bytes = bytes.try_into().ok()?;
        Some(Scripts { bytes })
    }

    /// Its bytes, as [`feed`](crate::feed) takes them.
    pub const fn bytes(&self) -> &[u8; SCRIPT_BYTES] {
        &self.bytes
    }

    /// Sets a script: these steps, and the end behind them. None, and nothing changes, where the script is above 15 or there are more than 32 steps.
    pub fn set(&mut self, script: u32, steps: &[Step]) -> Option<()> {
        let at = STEPS * STEP_BYTES * below(script, SCRIPTS)?;
        if STEPS < steps.len() {
            return None;
        }
        let script = &mut self.bytes[at..][..STEPS * STEP_BYTES];
        script.fill(0);
        for (place, step) in script.chunks_exact_mut(STEP_BYTES).zip(steps) {
            place.copy_from_slice(&step.bytes());
        }
        Some(())
    }

    /// The bytes of a step; None where the script is above 15 or the place above 31.
    pub fn step(&self, script: u32, place: u32) -> Option<[u8; STEP_BYTES]> {
        let at = STEPS * below(script, SCRIPTS)? + below(place, STEPS)?;
        self.bytes[STEP_BYTES * at..].first_chunk().copied()
    }
}

impl Default for Scripts {
    fn default() -> Scripts {
        Scripts::new()
    }
}
