//! The tally in one pass and without allocation, written as the rules read:
//! what the benchmark compares with.
//!
//! The maps of requests are listed here again: another kind of request must
//! be added here too.

use crate::layout::*;
use crate::tally::{Tally, LIST_BYTES};

/// The same function as `tally`.
pub fn tally_fast(list: &[u8]) -> Tally {
    match list.len() <= LIST_BYTES {
        true => count(list).unwrap_or(Tally::BAD),
        false => Tally::BAD,
    }
}

/// Counts the list; `None` for 13.
#[inline(always)]
fn count(mut list: &[u8]) -> Option<Tally> {
    let mut tally = Tally::EMPTY;
    while let [map, url, connection, rest @ ..] = list {
        let (url, connection) = (usize::from(*url), usize::from(*connection));
        if url >= URLS || connection >= CONNECTIONS {
            return None;
        }
        let (cookies, rest) = take_parts(*map, rest)?;
        tally.records[url] += 1;
        tally.cookies[url] += cookies;
        tally.all_records += 1;
        tally.all_cookies += cookies;
        list = rest;
    }
    list.is_empty().then_some(tally)
}

/// Takes what follows URL and connection: how many cookies, and the rest.
#[inline(always)]
fn take_parts(map: u8, rest: &[u8]) -> Option<(u32, &[u8])> {
    const DOCUMENT_COOKIES: u8 = MAP_DOCUMENT_REQUEST | BIT_COOKIES;
    const SCRIPT_COOKIES: u8 = MAP_SCRIPT_REQUEST | BIT_COOKIES;
    const PICTURE_COOKIES: u8 = MAP_PICTURE_REQUEST | BIT_COOKIES;
    match map {
        MAP_DOCUMENT_REQUEST | MAP_PICTURE_REQUEST => Some((0, rest)),
        MAP_SCRIPT_REQUEST => Some((0, take_handler(rest)?)),
        DOCUMENT_COOKIES | PICTURE_COOKIES => take_cookies(rest),
        SCRIPT_COOKIES => {
            let (cookies, rest) = take_cookies(rest)?;
            Some((cookies, take_handler(rest)?))
        }
        _ => None,
    }
}

#[inline(always)]
fn take_cookies(rest: &[u8]) -> Option<(u32, &[u8])> {
    let (&keys, values) = rest.split_first()?;
    let cookies = keys.count_ones();
    let rest = values.get(4 * cookies as usize..)?;
    (keys != 0).then_some((cookies, rest))
}

#[inline(always)]
fn take_handler(rest: &[u8]) -> Option<&[u8]> {
    let (&handler, rest) = rest.split_first()?;
    (usize::from(handler) < SCRIPTS).then_some(rest)
}
