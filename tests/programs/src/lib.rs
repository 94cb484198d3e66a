//! What the tests of the programs share: inputs by kind, one after another, each held to what the reference says; a table of what was done;
//! how a case that failed is done again; and wrong programs, which must be told.

pub mod counts;
pub mod input;
pub mod kind;
pub mod program;
pub mod run;
pub mod suite;
pub mod verdict;
pub mod wrong;

pub use input::Input;
pub use kind::Kind;
pub use suite::{Checked, Suite};
