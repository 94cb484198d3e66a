//! What one record does and why, step by step.
//!
//! The library answers with a number; this says which conditions failed, which set of the policy lacks which endpoints, which cookies were stored,
//! passed over, carried or withheld, and what each step of a script did. It is computed beside the library, from what `include/monitor.h` says,
//! and [`explain_and_compare`] holds the two against each other on every record.
//!
//! ```
//! use explain::{explain_and_compare, Because, Lack, Owner, Set, Why};
//! use zolherima::{Connection, Endpoint, Endpoints, PolicyBuilder, Record, Scripts, State, Url};
//!
//! // Connection 0 has everyone as a reader, which URL 0 does not allow.
//! let bank = Endpoint::https(1).unwrap();
//! let readers = Endpoints::only(bank) | Endpoints::only(bank.event());
//! let policy = PolicyBuilder::new()
//!     .url(0, Url { address: bank, is_entry: false, readers, writers: bank.into() })
//!     .connection(0, Connection { readers: Endpoints::EVERYONE, script_readers: readers, writers: bank.into() })
//!     .build()
//!     .unwrap();
//!
//! let load = Record::load(0, 0);
//! let explained = explain_and_compare(&policy, &Scripts::new(), &mut State::new(), &load).unwrap();
//! let lack = Lack {
//!     set: Set::Readers,
//!     lacking: Owner::Url(0),
//!     missing: Endpoints::EVERYONE.except(readers),
//!     because: Because::Has { set: Set::Readers, owner: Owner::Connection(0) },
//! };
//! assert_eq!(explained.outcome.unwrap_err().1, Why::Labels(vec![lack]));
//! ```

#![warn(missing_docs)]

mod compare;
mod cookies;
mod event;
mod label;
mod lack;
mod machine;
mod record;
pub mod rules;
mod script;

pub use compare::{explain_and_compare, Difference, Fed};
pub use event::{Did, End, Event, Explained, Why};
pub use lack::{Because, Lack, Owner, Set};

use machine::Machine;
use zolherima::{Policy, Scripts, State};

/// What the record does to this state, and why. The state is one that a session under this policy has: it starts from zeros, and nobody else
/// writes it.
pub fn explain(policy: &Policy, scripts: &Scripts, state: &State, record: &[u8]) -> Explained {
    let mut machine = Machine::new(policy, scripts, state);
    let outcome = machine.feed(record);
    Explained {
        events: machine.events,
        outcome,
        state: machine.state,
        out: machine.out,
    }
}
