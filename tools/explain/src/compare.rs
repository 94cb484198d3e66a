//! The explanation beside the library: both are computed, and any difference is told.

use crate::event::Explained;
use crate::explain;
use crate::machine::{PENDING, PRESENT};
use std::error::Error;
use std::fmt;
use zolherima::{feed, Accepted, Policy, Refusal, Scripts, State, KEYS, OUT_BYTES};

/// What the library made of a record.
#[derive(Clone, Debug, PartialEq, Eq)]
pub struct Fed {
    /// Its answer.
    pub answer: Result<Accepted, Refusal>,
    /// The state after.
    pub state: State,
    /// The requests that it wrote.
    pub out: Vec<u8>,
}

/// An explanation that is not what the library did: a bug in one of the two.
#[derive(Clone, Debug, PartialEq, Eq)]
pub struct Difference {
    /// The record.
    pub record: Vec<u8>,
    /// The explanation.
    pub explained: Explained,
    /// What the library did.
    pub fed: Fed,
}

/// Explains a record and feeds it to the library too. Where both agree, the state becomes that after the record; else it stays as it was.
pub fn explain_and_compare(
    policy: &Policy,
    scripts: &Scripts,
    state: &mut State,
    record: &[u8],
) -> Result<Explained, Box<Difference>> {
    let explained = explain(policy, scripts, state, record);
    let fed = fed(policy, scripts, state, record);
    if fed != as_fed(&explained) {
        return Err(Box::new(Difference {
            record: record.to_vec(),
            explained,
            fed,
        }));
    }
    *state = fed.state;
    Ok(explained)
}

fn fed(policy: &Policy, scripts: &Scripts, state: &State, record: &[u8]) -> Fed {
    let mut state = state.clone();
    let mut out = vec![0; OUT_BYTES];
    let answer = feed(
        policy.words(),
        scripts.bytes(),
        state.words_mut(),
        record,
        &mut out,
    );
    out.truncate(answer.map_or(0, |accepted| accepted.bytes));
    Fed { answer, state, out }
}

/// What the library should have done.
fn as_fed(explained: &Explained) -> Fed {
    Fed {
        answer: answer(explained),
        state: explained.state.clone(),
        out: explained.out.clone(),
    }
}

fn answer(explained: &Explained) -> Result<Accepted, Refusal> {
    match &explained.outcome {
        Ok(accepted) => Ok(*accepted),
        Err((refusal, _)) => Err(*refusal),
    }
}

impl fmt::Display for Difference {
    fn fmt(&self, to: &mut fmt::Formatter<'_>) -> fmt::Result {
        write!(
            to,
            "this is a bug: explanation and library differ on the record"
        )?;
        bytes(to, &self.record)?;
        let explained = as_fed(&self.explained);
        if explained.answer != self.fed.answer {
            to.write_str("\n  answer: explained as ")?;
            answered(to, explained.answer)?;
            to.write_str("; the library: ")?;
            answered(to, self.fed.answer)?;
        }
        if explained.out != self.fed.out {
            to.write_str("\n  output: explained as")?;
            bytes(to, &explained.out)?;
            to.write_str("; the library:")?;
            bytes(to, &self.fed.out)?;
        }
        states(to, &explained.state, &self.fed.state)
    }
}

impl Error for Difference {}

/// Each byte after a space; none are said to be none.
fn bytes(to: &mut fmt::Formatter<'_>, bytes: &[u8]) -> fmt::Result {
    if bytes.is_empty() {
        return to.write_str(" (empty)");
    }
    bytes.iter().try_for_each(|byte| write!(to, " {byte:02x}"))
}

fn answered(to: &mut fmt::Formatter<'_>, answer: Result<Accepted, Refusal>) -> fmt::Result {
    match answer {
        Ok(Accepted { bytes, steps }) => write!(to, "accepted, {bytes} bytes, {steps} steps"),
        Err(refusal) => write!(to, "refused ({}), {refusal}", refusal.number()),
    }
}

/// Every word in which the states differ.
fn states(to: &mut fmt::Formatter<'_>, explained: &State, library: &State) -> fmt::Result {
    let words = explained.words().iter().zip(library.words());
    for (place, (ours, theirs)) in words.enumerate() {
        if ours != theirs {
            to.write_str("\n  ")?;
            meaning(to, place)?;
            write!(
                to,
                ": explained as {ours:#010x}; the library: {theirs:#010x}"
            )?;
        }
    }
    Ok(())
}

/// What a word of the state is.
fn meaning(to: &mut fmt::Formatter<'_>, place: usize) -> fmt::Result {
    match place {
        0..PRESENT => write!(to, "cookie {} of host {}", place % KEYS, place / KEYS),
        PRESENT..PENDING => write!(to, "keys present at host {}", place - PRESENT),
        _ => write!(to, "connection {}", place - PENDING),
    }
}

#[cfg(test)]
mod tests {
    use super::*;
    use zolherima::{Endpoint, Endpoints, PolicyBuilder, Record, Url, SCRIPT_BYTES, STATE_WORDS};

    /// A load that is refused, held against a library that would have accepted it and kept a cookie.
    fn difference() -> Difference {
        let policy = PolicyBuilder::new().build().unwrap();
        let record = Record::load(0, 2).to_vec();
        let mut state = State::new();
        state.words_mut()[KEYS + 3] = 7;
        state.words_mut()[PRESENT + 1] = 8;
        state.words_mut()[PENDING + 2] = 0x0100_0000;
        let accepted = Accepted { bytes: 3, steps: 0 };
        Difference {
            explained: explain(&policy, &Scripts::new(), &State::new(), &record),
            fed: Fed {
                answer: Ok(accepted),
                state,
                out: record.clone(),
            },
            record,
        }
    }

    #[test]
    fn both_sides_are_told() {
        let told = "this is a bug: explanation and library differ on the record 03 00 02
  answer: explained as refused (6), the record names a URL, connection or script that there is not; the library: accepted, 3 bytes, 0 steps
  output: explained as (empty); the library: 03 00 02
  cookie 3 of host 1: explained as 0x00000000; the library: 0x00000007
  keys present at host 1: explained as 0x00000000; the library: 0x00000008
  connection 2: explained as 0x00000000; the library: 0x01000000";
        assert_eq!(difference().to_string(), told);
    }

    #[test]
    fn an_unsound_state_is_a_difference_and_stays() {
        let policy = PolicyBuilder::new().build().unwrap();
        let mut state = State::new();
        state.words_mut()[PENDING] = u32::MAX;
        let before = state.clone();
        let differs = explain_and_compare(&policy, &Scripts::new(), &mut state, &[]).unwrap_err();
        assert_eq!(differs.fed.answer, Err(Refusal::StateUnsound));
        assert_eq!(state, before);
    }

    /// One URL, and scripts that ask for pictures of others.
    fn explain_all_kinds(state: &State) {
        let url = Url {
            address: Endpoint::https(0).unwrap(),
            is_entry: false,
            readers: Endpoints::EVERYONE,
            writers: Endpoints::EVERYONE,
        };
        let policy = PolicyBuilder::new().url(63, url).build().unwrap();
        let scripts = Scripts::from_bytes(&[7; SCRIPT_BYTES]).unwrap();
        for map in 0..=u8::MAX {
            explain(&policy, &scripts, state, &[map, 63, 31, 3, 0, 0, 0]);
            explain(&policy, &scripts, state, &[map, 63, 31, 0]);
        }
    }

    #[test]
    fn an_unsound_state_stops_no_explanation() {
        for word in [0x0100_00ff, 0x02ff_ffff, 0x02ff_ff3f, 0x0300_0040, u32::MAX] {
            explain_all_kinds(&State::from_words([word; STATE_WORDS]));
        }
    }
}
