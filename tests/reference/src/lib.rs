//! The monitor in plain Rust, from document 01: it shares no definition and no
//! code with the proof.
//!
//! [`feed`] follows the document rule by rule, and [`feed_by`] other rules than
//! its own about readers and writers. [`feed_fast`] gives the same
//! results without allocation and is tuned for speed. [`walk`] is the
//! program walk. [`tally`] counts the requests of a list, [`tally_fast`] does
//! the same in one pass, and [`tally_text`] is the program tally. [`import`]
//! reads a Set-Cookie line, [`import_fast`] does the same in one pass, and
//! [`import_text`] is the program import. [`journey_find`] finds a connection
//! for a journey, [`journey_find_fast`] does the same with one question for
//! each connection, and [`journey_text`] is the program journey. [`reach_count`]
//! counts the URLs that each connection fits, [`reach_fits`] asks one of them,
//! [`reach_count_fast`] counts without allocation, and [`reach_text`] is the
//! program reach.

#![forbid(unsafe_code)]

mod endpoint;
mod entry;
mod fast;
mod import;
mod import_attribute_notes;
mod import_fast;
mod import_line;
mod import_notes;
mod import_seen;
mod import_text;
mod interpreter;
mod journey;
mod journey_change_notes;
mod journey_fast;
mod journey_notes;
mod journey_refusal_notes;
mod journey_seen;
mod journey_stops;
mod journey_text;
mod kind;
mod labels;
pub mod layout;
mod missing;
mod monitor;
pub mod numbers;
mod policy;
mod reach;
mod reach_fast;
mod reach_notes;
mod reach_seen;
mod record;
mod request;
mod request_record;
mod request_step;
mod rules;
mod seen;
mod state;
mod tally;
mod tally_fast;
mod tally_seen;
mod upgrade;
mod walk;

pub use endpoint::EndpointSet;
pub use fast::feed_fast;
pub use import::{
    import, import_noting, Imported, HOST_UNKNOWN, IMPORT_BYTES, NAMES_BYTES, NAME_BYTES, NO_KEY,
    NO_NAME, NO_NUMBER,
};
pub use import_fast::import_fast;
pub use import_seen::{ImportEvent, ImportSeen};
pub use import_text::{host_of, import_text, names_of};
pub use journey::{
    first_failure, journey_find, journey_noting, journey_stops, Failure, Found, CONNECTION_UNKNOWN,
    JOURNEY_BAD, JOURNEY_URLS, NO_CONNECTION,
};
pub use journey_fast::journey_find_fast;
pub use journey_seen::{JourneyEvent, JourneySeen};
pub use journey_text::{journey_text, urls_of};
pub use monitor::{feed, feed_by, feed_noting};
pub use policy::{ConnectionTag, CookieTag, Url};
pub use reach::{reach_count, reach_fits, reach_fits_noting, reach_noting, reach_text, Reach};
pub use reach_fast::reach_count_fast;
pub use reach_seen::{ReachEvent, ReachSeen};
pub use rules::{Documents, Rules};
pub use seen::{Event, Seen};
pub use tally::{tally, tally_noting, tally_text, Tally, LIST_BAD, LIST_BYTES};
pub use tally_fast::tally_fast;
pub use tally_seen::{TallyEvent, TallySeen};
pub use walk::walk;

/// What the monitor answers to one record.
#[derive(Debug, Clone, Copy, PartialEq, Eq)]
pub struct Answer {
    /// 0 when accepted, else the number of the refusal.
    pub number: u32,
    /// Output bytes written.
    pub bytes: u32,
    /// Script steps run.
    pub steps: u32,
    /// The endpoint that is missing where labels forbid the record, else
    /// [`layout::NONE_MISSING`].
    pub missing: u32,
}
