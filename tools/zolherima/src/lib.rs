//! The commands of the program `zolherima`: policies, scripts and sessions as text, checked, compiled, shown, run and explained.
//!
//! Every judgement is the proved library's. What is said beside it is computed here, and compared with it: a difference is told as a bug.

pub mod advice;
pub mod args;
pub mod check;
pub mod commands;
#[cfg(test)]
mod examples;
pub mod failure;
pub mod faults;
pub mod file;
pub mod happened;
pub mod header;
pub mod import;
pub mod input;
pub mod journey;
mod needed;
pub mod picture;
pub mod place;
pub mod progress;
pub mod reach;
pub mod run;
pub mod table;
pub mod tally;
pub mod walk;
pub mod words;
