//! The bytes that walk reads, taken apart: a policy, a script table and records, each after its length.

use policy_text::{show, FIRST_RECORD, POLICY_BYTES, WALK_BYTES};
use zolherima::{faults, Policy, Scripts, SCRIPT_BYTES};

use crate::failure::Failure;

/// The text of a policy alone, or of all that walk reads.
pub fn text(bytes: &[u8]) -> Result<String, Failure> {
    let (policy, rest) = match bytes.len() {
        length if length > WALK_BYTES => {
            return refused(format!("there are more than {WALK_BYTES} bytes"))
        }
        POLICY_BYTES | FIRST_RECORD.. => bytes.split_at(POLICY_BYTES),
        length => {
            return refused(format!(
                "there are {length} bytes: {POLICY_BYTES} are a policy, and from {FIRST_RECORD} on it is what walk reads"
            ))
        }
    };
    let words: Vec<u32> = policy.chunks_exact(4).map(word).collect();
    let policy = Policy::from_words(&words).map_err(|_| not_well_formed(&words))?;
    let (scripts, session) = match rest.is_empty() {
        true => (Scripts::new(), rest),
        false => {
            let (scripts, session) = rest.split_at(SCRIPT_BYTES);
            (Scripts::from_bytes(scripts).unwrap_or_default(), session)
        }
    };
    Ok(show(&policy, &scripts, &records(session)?))
}

fn refused<T>(why: String) -> Result<T, Failure> {
    Err(Failure::Refused(why))
}

/// Each fault in a line; of many the first, since they may be no policy at all.
fn not_well_formed(words: &[u32]) -> Failure {
    const MOST: usize = 20;
    let told = faults(words).take(MOST);
    let told: String = told.map(|fault| format!("error: {fault}\n")).collect();
    match faults(words).count().saturating_sub(MOST) {
        0 => Failure::Told(told),
        more => Failure::Told(format!(
            "{told}error: and {more} more; if this is a text, `zolherima check` reads it\n"
        )),
    }
}

fn word(bytes: &[u8]) -> u32 {
    bytes
        .iter()
        .fold(0, |word, byte| word << 8 | u32::from(*byte))
}

fn records(mut session: &[u8]) -> Result<Vec<&[u8]>, Failure> {
    let mut records = Vec::new();
    while let Some((&length, rest)) = session.split_first() {
        let Some((record, rest)) = rest.split_at_checked(usize::from(length)) else {
            let nth = records.len() + 1;
            return refused(format!(
                "record {nth} is cut: it has {} of {length} bytes",
                rest.len()
            ));
        };
        records.push(record);
        session = rest;
    }
    Ok(records)
}
