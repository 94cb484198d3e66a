//! The search for a connection without allocation, written for speed: what the
//! benchmark compares with.
//!
//! What a journey asks of a connection does not depend on the order of its
//! further URLs, so it comes down to bounds that the connection's readers and
//! writers keep: one pass over the journey gathers them, one over the
//! connections tries them.

use crate::fast::{address_of, admitted, host_of, only, url_row, well_formed, Policy, UrlRow};
use crate::journey::{Found, JOURNEY_BAD, JOURNEY_URLS, NO_CONNECTION};
use crate::layout::{
    ADDRESSES, ENTRY, NO_PARTNER, POLICY_CONNECTIONS, POLICY_HTTPS_HOSTS, POLICY_PARTNERS, URLS,
};
use crate::numbers::{ACCEPTED, POLICY_BAD};

/// The same function as `journey_find`.
pub fn journey_find_fast(policy: &[u32], urls: &[u8]) -> Found {
    match find(policy, urls) {
        Ok(connection) => Found {
            number: ACCEPTED,
            connection,
        },
        Err(number) => Found::refused(number),
    }
}

#[inline(always)]
fn find(policy: &[u32], urls: &[u8]) -> Result<u32, u32> {
    let policy: &Policy = policy.try_into().map_err(|_| POLICY_BAD)?;
    if !well_formed(policy) {
        return Err(POLICY_BAD);
    }
    let (readers, writers) = gather(policy, urls).ok_or(JOURNEY_BAD)?;
    Ok(lowest(policy, readers, writers))
}

/// What a set of a connection must have, and what it may have.
#[derive(Clone, Copy)]
struct Bounds {
    least: u32,
    most: u32,
}

/// The bounds of readers and writers; none where the journey is refused. Every
/// URL bounds the readers from above and the writers from below. A further one
/// does so the other way too, by its event endpoint and by whom it admits.
#[inline(always)]
fn gather(policy: &Policy, urls: &[u8]) -> Option<(Bounds, Bounds)> {
    let (&first, further) = urls.split_first()?;
    if urls.len() > JOURNEY_URLS {
        return None;
    }
    let row = row_after(policy, first);
    let mut above = u32::from(first);
    let mut words = row[0];
    let mut readers = Bounds {
        least: 0,
        most: row[1],
    };
    let mut writers = Bounds {
        least: only(address_of(row[0])),
        most: u32::MAX,
    };
    for &url in further {
        let row = row_after(policy, url);
        above |= u32::from(url);
        words |= row[0];
        readers.least |= only(host_of(row[0]));
        readers.most &= row[1];
        writers.least |= only(address_of(row[0]));
        writers.most &= admitted(&row);
    }
    // An empty row has no partner, and a partner is no empty row. Its word has a
    // bit that no URL's has, as a number above 63 has one.
    let has_rows = above < URLS as u32 && words < ENTRY + ADDRESSES;
    has_rows.then_some((readers, writers))
}

/// The row after the replacement. A number above 63 gives any row.
#[inline(always)]
fn row_after(policy: &Policy, url: u8) -> UrlRow {
    let number = u32::from(url) % URLS as u32;
    let number = match policy[POLICY_PARTNERS + number as usize] {
        NO_PARTNER => number,
        partner => partner,
    };
    url_row(policy, number)
}

/// The lowest connection whose readers and writers keep the bounds. All are
/// tried, several at a time and without a way out in between: which one is told
/// could not be foreseen.
#[inline(always)]
fn lowest(policy: &Policy, readers: Bounds, writers: Bounds) -> u32 {
    if (readers.least & !readers.most) | (writers.least & !writers.most) != 0 {
        return NO_CONNECTION;
    }
    let (rows, _) = policy[POLICY_CONNECTIONS..POLICY_HTTPS_HOSTS].as_chunks::<3>();
    // The endpoints that are settled: to be there, or not to be. None is both.
    let settled = [readers, writers].map(|bounds| bounds.least | !bounds.most);
    let keeps = |row: &[u32; 3]| {
        let strays = (row[0] ^ readers.least) & settled[0];
        strays | (row[2] ^ writers.least) & settled[1] == 0
    };
    let mut carriers = 0_u32;
    for (place, row) in rows.iter().enumerate() {
        carriers |= u32::from(keeps(row)) << place;
    }
    // Of no bit this is 32, which is told for none.
    carriers.trailing_zeros()
}
