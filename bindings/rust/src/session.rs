//! A session: one policy and one script table, and the state that records leave behind.

use crate::{feed, requests, Policy, Refusal, Requests, Scripts, State, OUT_BYTES};

/// A session from a state of zeros on, with its own state and output.
///
/// Since policy and script table stay the same and nobody else writes the state, what is [promised](crate#secrecy-and-integrity) holds of it.
///
/// ```
/// use zolherima::{PolicyBuilder, Record, Refusal, Scripts, Session};
///
/// // There is no URL, so that nothing can be asked for.
/// let (policy, scripts) = (PolicyBuilder::new().build()?, Scripts::new());
/// let mut session = Session::new(&policy, &scripts);
/// assert_eq!(session.feed(&Record::load(0, 0)), Err(Refusal::NameUnknown));
/// # Ok::<(), zolherima::Fault>(())
/// ```
#[derive(Clone, Debug)]
pub struct Session<'a> {
    policy: &'a Policy,
    scripts: &'a Scripts,
    state: State,
    out: [u8; OUT_BYTES],
}

/// What a record did that a [`Session`] accepted.
#[derive(Clone, Debug, PartialEq, Eq)]
pub struct Sent<'a> {
    /// The requests that go out.
    pub requests: Requests<'a>,
    /// How many steps of a script ran, the one that ended it included; 0 where no script ran.
    pub steps: u32,
    bytes: &'a [u8],
}

impl<'a> Session<'a> {
    /// A session that nothing was fed to.
    pub const fn new(policy: &'a Policy, scripts: &'a Scripts) -> Session<'a> {
        Session {
            policy,
            scripts,
            state: State::new(),
            out: [0; OUT_BYTES],
        }
    }

    /// Feeds one record, of any bytes: a [`Record`](crate::Record) or what came from elsewhere. A refusal changes nothing.
    ///
    /// # Panics
    ///
    /// As [`feed`](crate::feed()).
    pub fn feed(&mut self, record: &[u8]) -> Result<Sent<'_>, Refusal> {
        let accepted = feed(
            self.policy.words(),
            self.scripts.bytes(),
            self.state.words_mut(),
            record,
            &mut self.out,
        )?;
        let bytes = &self.out[..accepted.bytes];
        Ok(Sent {
            requests: requests(bytes),
            steps: accepted.steps,
            bytes,
        })
    }

    /// The state as the last record left it.
    pub const fn state(&self) -> &State {
        &self.state
    }
}

impl<'a> Sent<'a> {
    /// The requests as bytes, one right after another.
    pub const fn bytes(&self) -> &'a [u8] {
        self.bytes
    }
}
