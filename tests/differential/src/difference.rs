//! What of a call's result is compared.

use cases::difference::{Difference, Subject};
use reference::layout::NONE_MISSING;
use reference::Answer;

use crate::buffers::Buffers;

/// What a monitor answered and what it left in its buffers.
pub struct Outcome {
    pub monitor: Subject,
    pub answer: Answer,
    pub buffers: Buffers,
}

impl Outcome {
    /// Before the first call.
    pub fn of(monitor: &'static str) -> Outcome {
        Outcome {
            monitor: Subject(monitor),
            answer: Answer {
                number: 0,
                bytes: 0,
                steps: 0,
                missing: NONE_MISSING,
            },
            buffers: Buffers::default(),
        }
    }

    /// The first way in which this is not the outcome that another monitor had on equal buffers.
    pub fn same_as(&self, expected: &Outcome) -> Result<(), Difference> {
        let (ours, theirs) = (self.answer, expected.answer);
        let answered = |what, theirs, ours| {
            self.monitor
                .gave_part("answer's ", what, &[theirs], &[ours])
        };
        answered("number", theirs.number, ours.number)?;
        answered("bytes", theirs.bytes, ours.bytes)?;
        answered("steps", theirs.steps, ours.steps)?;
        answered("missing", theirs.missing, ours.missing)?;
        let (ours, theirs) = (&self.buffers, &expected.buffers);
        self.monitor
            .gave("state", theirs.state.inside(), ours.state.inside())?;
        self.monitor
            .gave("output", theirs.out.inside(), ours.out.inside())
    }

    /// What document 01 says of every call, whatever another monitor does: what is only read is unchanged, and so are state and output in a
    /// refusal, and the output past the counted bytes always.
    pub fn kept_what_it_must(&self, before: &Buffers) -> Result<(), Difference> {
        let after = &self.buffers;
        let monitor = self.monitor;
        monitor.kept("policy", &before.policy, &after.policy)?;
        monitor.kept("script table", &before.scripts, &after.scripts)?;
        monitor.kept("record", &before.record, &after.record)?;
        monitor.kept_guards("state", &before.state, &after.state)?;
        monitor.kept_guards("output", &before.out, &after.out)?;
        if self.answer.number != 0 {
            monitor.kept("state of a refusal", &before.state, &after.state)?;
        }
        let written = self.answer.bytes as usize;
        let rest = before.out.inside().get(written..).unwrap_or(&[]);
        let rest_after = after.out.inside().get(written..).unwrap_or(&[]);
        monitor.gave_part("rest of the ", "output", rest, rest_after)
    }
}
