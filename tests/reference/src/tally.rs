//! The tally of requests: how many each URL had, and how many cookies they
//! carried.

use std::fmt::Write;

use crate::layout::*;
use crate::numbers::ACCEPTED;
use crate::request_record::{read_requests, Request};
use crate::tally_seen::{TallyEvent, TallySeen};

/// Bytes of the longest list.
pub const LIST_BYTES: usize = 65_536;
/// The list is longer, or is not a run of whole requests with numbers in
/// range.
pub const LIST_BAD: u32 = 13;

/// What a list of requests comes to.
#[derive(Clone, Copy, Debug, PartialEq, Eq)]
pub struct Tally {
    /// 0, or 13 with every count 0.
    pub number: u32,
    /// Requests for each URL.
    pub records: [u32; URLS],
    /// Cookies that the requests for each URL carry.
    pub cookies: [u32; URLS],
    /// Requests in the list.
    pub all_records: u32,
    /// Cookies in the list.
    pub all_cookies: u32,
}

impl Tally {
    /// The tally of the empty list.
    pub(crate) const EMPTY: Tally = Tally {
        number: ACCEPTED,
        records: [0; URLS],
        cookies: [0; URLS],
        all_records: 0,
        all_cookies: 0,
    };

    /// The tally of a list that is turned away.
    pub(crate) const BAD: Tally = Tally {
        number: LIST_BAD,
        ..Tally::EMPTY
    };
}

/// Tallies a list of requests, joined without length bytes, as document 01
/// reads, rule by rule.
pub fn tally(list: &[u8]) -> Tally {
    tally_noting(list, &mut TallySeen::new())
}

/// Tallies a list and notes what happened.
pub fn tally_noting(list: &[u8], seen: &mut TallySeen) -> Tally {
    match judge(list) {
        Err(clause) => {
            seen.note(clause);
            Tally::BAD
        }
        Ok(requests) => {
            note_accepted(list, &requests, seen);
            count(&requests)
        }
    }
}

/// The requests of the list, unless 13 turns it away.
fn judge(list: &[u8]) -> Result<Vec<Request>, TallyEvent> {
    if list.len() > LIST_BYTES {
        return Err(TallyEvent::TooLong);
    }
    let requests = read_requests(list)?;
    requests.iter().try_for_each(check_numbers)?;
    Ok(requests)
}

/// URL below 64, connection below 32 and handler below 16.
fn check_numbers(request: &Request) -> Result<(), TallyEvent> {
    if request.url >= URLS {
        return Err(TallyEvent::UrlAbove);
    }
    if request.connection >= CONNECTIONS {
        return Err(TallyEvent::ConnectionAbove);
    }
    if request.handler >= SCRIPTS {
        return Err(TallyEvent::HandlerAbove);
    }
    Ok(())
}

/// Counts requests whose numbers were checked. The totals are counted from
/// the requests, not from the counts of the URLs.
fn count(requests: &[Request]) -> Tally {
    let mut tally = Tally::EMPTY;
    for request in requests {
        tally.records[request.url] += 1;
        tally.cookies[request.url] += request.cookies();
    }
    tally.all_records = requests.len() as u32;
    tally.all_cookies = requests.iter().map(Request::cookies).sum();
    tally
}

fn note_accepted(list: &[u8], requests: &[Request], seen: &mut TallySeen) {
    seen.note(match list.len() {
        0 => TallyEvent::Empty,
        _ => TallyEvent::Accepted,
    });
    if list.len() == LIST_BYTES {
        seen.note(TallyEvent::Longest);
    }
    for request in requests {
        seen.note(TallyEvent::counted(request));
    }
}

/// What the program tally prints for this standard input.
pub fn tally_text(list: &[u8]) -> String {
    let tally = tally(list);
    if tally.number != ACCEPTED {
        return "bad\n".to_string();
    }
    let mut text = String::new();
    let counts = tally.records.iter().zip(tally.cookies);
    for (url, (&records, cookies)) in counts.enumerate() {
        if records > 0 {
            print(&mut text, format_args!("{url} {records} {cookies}"));
        }
    }
    let (records, cookies) = (tally.all_records, tally.all_cookies);
    print(&mut text, format_args!("all {records} {cookies}"));
    text
}

fn print(text: &mut String, line: std::fmt::Arguments) {
    writeln!(text, "{line}").expect("a string takes every line");
}
