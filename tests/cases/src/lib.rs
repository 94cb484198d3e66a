//! Random calls of the monitor, for the tests and the benchmark: policies, script tables, states, records, and damage to each; lists of
//! requests; Set-Cookie lines; journeys; policies for the reach table, and pairs of them; and what the tests share to lend them and to tell
//! what came of it.
//!
//! Everything comes from a seed and from nothing else, so a case is found again by its seed and its number. What is made here is only
//! input: no test takes an expected result from this crate. It knows the rules of labels all the same, since records made at random
//! would nearly all be refused.

pub mod call;
pub mod damage;
pub mod difference;
pub mod events;
pub mod guarded;
pub mod hex;
pub mod journey;
pub mod labels;
pub mod line;
pub mod list;
pub mod names;
pub mod plan;
pub mod policy;
pub mod policy_bytes;
pub mod random;
pub mod reach;
pub mod record;
pub mod scripts;
pub mod session;
pub mod setting;
pub mod state;

pub use call::Call;
pub use plan::{Extent, Plan};
pub use random::Random;
pub use session::Session;
pub use setting::Setting;
