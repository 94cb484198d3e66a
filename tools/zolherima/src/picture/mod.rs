//! Pictures, as SVG.

mod column;
mod columns;
pub mod journey;
pub mod reach;
mod style;
mod svg;
pub mod tally;
mod words;
