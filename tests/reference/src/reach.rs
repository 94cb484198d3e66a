//! The reach table: for each connection how many URLs it fits, and how many that
//! is in all. Rows are asked as they stand: no partner replaces one.

use std::fmt;

use crate::journey_text::read_policy;
use crate::layout::{CONNECTIONS, URLS};
use crate::numbers::{ACCEPTED, POLICY_BAD};
use crate::policy::Policy;
use crate::reach_notes;
use crate::reach_seen::ReachSeen;
use crate::seen::Seen;

/// How wide a policy is.
#[derive(Debug, Clone, Copy, PartialEq, Eq)]
pub struct Reach {
    /// 0, or the number of the refusal with every count 0.
    pub number: u32,
    /// For each connection, how many URLs it fits.
    pub urls: [u32; CONNECTIONS],
    /// How many that is for all connections.
    pub all: u32,
}

impl Reach {
    /// What is told of a policy that is refused.
    pub(crate) const REFUSED: Reach = Reach {
        number: POLICY_BAD,
        urls: [0; CONNECTIONS],
        all: 0,
    };

    /// The table with these counts.
    pub(crate) fn of(urls: [u32; CONNECTIONS]) -> Reach {
        Reach {
            number: ACCEPTED,
            urls,
            all: urls.iter().sum(),
        }
    }
}

/// As the program prints it: the number where it refuses, else a line for each
/// connection and one for all.
impl fmt::Display for Reach {
    fn fmt(&self, to: &mut fmt::Formatter<'_>) -> fmt::Result {
        if self.number != ACCEPTED {
            return writeln!(to, "{}", self.number);
        }
        for (connection, count) in self.urls.iter().enumerate() {
            writeln!(to, "{connection} {count}")?;
        }
        writeln!(to, "all {}", self.all)
    }
}

/// Counts the URLs that each connection fits, as documents 01 and 02 read.
pub fn reach_count(policy: &[u32]) -> Reach {
    match Policy::read(policy) {
        Err(_) => Reach::REFUSED,
        Ok(policy) => count(&policy),
    }
}

/// Counts and notes what happened; of a policy that is refused the clause is
/// noted among those of the monitor.
pub fn reach_noting(policy: &[u32], seen: &mut ReachSeen, clauses: &mut Seen) -> Reach {
    match Policy::read(policy) {
        Err(clause) => {
            clauses.note(clause);
            reach_notes::note_refused(policy, seen);
            Reach::REFUSED
        }
        Ok(policy) => {
            let reach = count(&policy);
            reach_notes::note(&policy, &reach, seen);
            reach
        }
    }
}

/// Whether the table counts this URL for this connection, whatever the numbers:
/// no policy that is refused has a table, and no table has a place for other
/// numbers than those of a connection and of a URL.
pub fn reach_fits(policy: &[u32], connection: u32, url: u32) -> bool {
    Policy::read(policy).is_ok_and(|policy| fits(&policy, connection as usize, url as usize))
}

/// The same, and notes what happened.
pub fn reach_fits_noting(policy: &[u32], connection: u32, url: u32, seen: &mut ReachSeen) -> bool {
    let policy = Policy::read(policy).ok();
    let (connection, url) = (connection as usize, url as usize);
    reach_notes::note_asked(policy.as_ref(), connection, url, seen);
    policy.is_some_and(|policy| fits(&policy, connection, url))
}

/// A connection 0 to 31 that fits the URL of a row 0 to 63 that is not empty.
pub(crate) fn fits(policy: &Policy, connection: usize, url: usize) -> bool {
    let fits = |url| policy.connection(connection).fits(url);
    connection < CONNECTIONS && policy.url(url).is_some_and(fits)
}

fn count(policy: &Policy) -> Reach {
    let mut urls = [0; CONNECTIONS];
    for (connection, count) in urls.iter_mut().enumerate() {
        let reached = (0..URLS).filter(|&url| fits(policy, connection, url));
        *count = reached.count() as u32;
    }
    Reach::of(urls)
}

/// What the program reach prints for this standard input.
pub fn reach_text(input: &[u8]) -> String {
    reach_count(&read_policy(input)).to_string()
}
