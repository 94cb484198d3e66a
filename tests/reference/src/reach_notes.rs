//! What happened while a reach table was counted or asked. For the events alone:
//! nothing is decided here.

use crate::endpoint::{Endpoint, EndpointSet};
use crate::layout::{ADDRESSES, CONNECTIONS, HOSTS, POLICY_WORDS, URLS};
use crate::policy::{ConnectionTag, Policy, Url};
use crate::reach::{fits, reach_count, Reach};
use crate::reach_seen::ReachEvent::*;
use crate::reach_seen::{ReachEvent, ReachSeen};

/// Every endpoint.
const EVERY: EndpointSet = EndpointSet(u32::MAX);
/// The counts of a table in which all fits.
const FULL: u32 = (CONNECTIONS * URLS) as u32;

/// Notes what is particular about a policy that is refused.
pub fn note_refused(words: &[u32], seen: &mut ReachSeen) {
    let count = words.len();
    let is_front_counted = count > POLICY_WORDS && reach_count(&words[..POLICY_WORDS]).all > 0;
    seen.note_all(&[
        (Words0, count == 0),
        (WordsFew, (1..POLICY_WORDS - 1).contains(&count)),
        (Words608, count == POLICY_WORDS - 1),
        (Words610, count == POLICY_WORDS + 1),
        (WordsMany, count > POLICY_WORDS + 1),
        (FrontCounted, is_front_counted),
    ]);
}

/// Notes what came of a policy that was counted.
pub fn note(policy: &Policy, reach: &Reach, seen: &mut ReachSeen) {
    let grid = Grid::of(|connection, url| fits(policy, connection, url));
    note_rows(policy, reach, seen);
    note_counts(reach, seen);
    note_urls(policy, &grid, seen);
    for connection in 0..CONNECTIONS {
        let tag = policy.connection(connection);
        for url in (0..URLS).filter_map(|url| policy.url(url)) {
            note_cell(tag, url, seen);
        }
        note_empty(policy, tag, seen);
    }
    note_partners(policy, &grid, seen);
    note_replaced(policy, &grid, seen);
}

/// The URLs that each connection reaches, as bits of a word.
struct Grid([u64; CONNECTIONS]);

impl Grid {
    fn of(reaches: impl Fn(usize, usize) -> bool) -> Grid {
        let mut rows = [0; CONNECTIONS];
        for (connection, row) in rows.iter_mut().enumerate() {
            let reached = (0..URLS).filter(|&url| reaches(connection, url));
            *row = reached.fold(0, |row, url| row | 1 << url);
        }
        Grid(rows)
    }

    fn reaches(&self, connection: usize, url: usize) -> bool {
        self.0[connection] >> url & 1 == 1
    }

    /// The URLs that some connection reaches, and those that all do.
    fn reached(&self) -> (u64, u64) {
        let any = self.0.iter().fold(0, |any, row| any | row);
        let all = self.0.iter().fold(u64::MAX, |all, row| all & row);
        (any, all)
    }

    fn counts(&self) -> [u32; CONNECTIONS] {
        self.0.map(u64::count_ones)
    }

    fn total(&self) -> u32 {
        self.counts().iter().sum()
    }
}

fn note_rows(policy: &Policy, reach: &Reach, seen: &mut ReachSeen) {
    let urls = (0..URLS).filter(|&url| policy.url(url).is_some()).count();
    seen.note(match urls {
        0 => RowsNone,
        URLS => RowsAll,
        _ => RowsSome,
    });
    seen.note_all(&[
        (All0, reach.all == 0 && urls > 0),
        (AllBetween, (1..FULL).contains(&reach.all)),
        (All2048, reach.all == FULL),
    ]);
}

fn note_counts(reach: &Reach, seen: &mut ReachSeen) {
    let has = |count: u32| reach.urls.contains(&count);
    let is_only = |connection: usize| reach.all > 0 && reach.urls[connection] == reach.all;
    seen.note_all(&[
        (Reaches0, has(0) && reach.all > 0),
        (Reaches1, has(1)),
        (Reaches63, has(63)),
        (Reaches64, has(64)),
        (Connection0, is_only(0)),
        (Connection31, is_only(31)),
    ]);
}

fn note_urls(policy: &Policy, grid: &Grid, seen: &mut ReachSeen) {
    let (any, all) = grid.reached();
    let is_missed = |&url: &usize| policy.url(url).is_some() && any >> url & 1 == 0;
    let first = grid.0.iter().find(|row| **row != 0);
    let is_other = |row: &u64| {
        first.is_some_and(|first| row != first && row.count_ones() == first.count_ones())
    };
    seen.note_all(&[
        (Url0, any == 1),
        (Url63, any == 1 << 63),
        (
            ReachedByNone,
            any != 0 && (0..URLS).any(|it| is_missed(&it)),
        ),
        (ReachedByAll, all != 0),
        (OtherUrls, grid.0.iter().any(is_other)),
    ]);
}

/// What a connection and a URL have.
fn note_cell(tag: &ConnectionTag, url: &Url, seen: &mut ReachSeen) {
    match (tag.readers_fit(url), tag.writers_fit(url)) {
        (true, true) => {
            seen.note(Fits);
            note_fit_readers(tag, url, seen);
            note_fit_writers(tag, url, seen);
            seen.note(sort_of(url));
            note_address(url, seen);
        }
        (false, true) => note_readers(tag, url, seen),
        (true, false) => note_writers(tag, url, seen),
        (false, false) => seen.note(ForbidBoth),
    }
}

fn note_fit_readers(tag: &ConnectionTag, url: &Url, seen: &mut ReachSeen) {
    seen.note_all(&[
        (ReadersSame, tag.readers == url.readers),
        (ReadersMore, tag.readers != url.readers),
        (NoReaders, tag.readers.is_empty()),
        (EveryReader, tag.readers == EVERY),
        (NoEventReader, !tag.readers.holds(url.event_endpoint())),
    ]);
}

fn note_fit_writers(tag: &ConnectionTag, url: &Url, seen: &mut ReachSeen) {
    let is_event_writer = tag.writers.holds(url.event_endpoint());
    let is_one = tag.writers == EndpointSet::of(url.message_endpoint());
    seen.note_all(&[
        (OneWriter, is_one),
        (EveryWriter, tag.writers == EVERY),
        (NoEventWriter, !is_event_writer),
        (UrlNoWriters, url.writers.is_empty()),
        (UrlLacksWriter, !tag.writers_admitted(url)),
    ]);
}

fn sort_of(url: &Url) -> ReachEvent {
    match (url.is_entry, url.is_https()) {
        (false, false) => Http,
        (false, true) => Https,
        (true, false) => EntryHttp,
        (true, true) => EntryHttps,
    }
}

fn note_address(url: &Url, seen: &mut ReachSeen) {
    const HTTPS: u32 = HOSTS as u32;
    seen.note_all(&[
        (Address0, url.address == 0),
        (Address15, url.address == HTTPS - 1),
        (Address16, url.address == HTTPS),
        (Address31, url.address == ADDRESSES - 1),
    ]);
}

/// The readers alone forbid the URL.
fn note_readers(tag: &ConnectionTag, url: &Url, seen: &mut ReachSeen) {
    let missing = tag.readers_missing(url);
    let is_only = |reader| missing == EndpointSet::of(Endpoint(reader));
    seen.note_all(&[
        (ForbidReaders, true),
        (Reader0, is_only(0)),
        (Reader31, is_only(31)),
        (ReadersFewer, url.readers.within(tag.readers)),
        (EveryReaderForbids, tag.readers == EVERY),
        (ScriptReaders, tag.script_readers.within(url.readers)),
        (EntryReaders, url.is_entry),
    ]);
}

/// The writers alone forbid it.
fn note_writers(tag: &ConnectionTag, url: &Url, seen: &mut ReachSeen) {
    let is_only = |writer| tag.writers == EVERY.missing_in(EndpointSet::of(Endpoint(writer)));
    seen.note_all(&[
        (ForbidWriters, true),
        (Message0, is_only(0)),
        (Message31, is_only(31)),
        (NoWriters, tag.writers.is_empty()),
        (EventWriter, tag.writers.holds(url.event_endpoint())),
        (EntryWriters, url.is_entry),
    ]);
}

/// An empty row has no readers, and a connection without readers might be taken
/// to fit it.
fn note_empty(policy: &Policy, tag: &ConnectionTag, seen: &mut ReachSeen) {
    let is_any_empty = (0..URLS).any(|url| policy.url(url).is_none());
    let is_near = is_any_empty && tag.readers.is_empty();
    seen.note_all(&[
        (EmptyNoReaders, is_near),
        (EmptyEveryWriter, is_near && tag.writers == EVERY),
    ]);
}

fn note_partners(policy: &Policy, grid: &Grid, seen: &mut ReachSeen) {
    for connection in 0..CONNECTIONS {
        let mut partners = Vec::new();
        for url in 0..URLS {
            let Some(partner) = policy.partner(url) else {
                continue;
            };
            let reaches = |url| grid.reaches(connection, url);
            seen.note(match (reaches(url), reaches(partner)) {
                (true, true) => PartnerBoth,
                (true, false) => RowAlone,
                (false, true) => PartnerAlone,
                (false, false) => PartnerNeither,
            });
            if reaches(url) {
                seen.note_all(&[(PartnerShared, partners.contains(&partner))]);
                partners.push(partner);
            }
        }
    }
}

/// What would be counted if each row were replaced by its partner first.
fn note_replaced(policy: &Policy, grid: &Grid, seen: &mut ReachSeen) {
    let replaced = Grid::of(|connection, url| {
        policy.url(url).is_some() && fits(policy, connection, policy.upgraded(url))
    });
    let (as_is, after) = (grid.total(), replaced.total());
    seen.note_all(&[
        (ReplacedMore, after > as_is),
        (ReplacedFewer, after < as_is),
        (
            ReplacedAlike,
            after == as_is && grid.counts() != replaced.counts(),
        ),
    ]);
}

/// Notes what is asked of a policy, or of one that is refused.
pub fn note_asked(policy: Option<&Policy>, connection: usize, url: usize, seen: &mut ReachSeen) {
    let is_above = connection >= CONNECTIONS || url >= URLS;
    match policy {
        None if is_above => seen.note(AskedRefusedAbove),
        None => seen.note(AskedRefused),
        Some(policy) if is_above => note_above(policy, connection, url, seen),
        Some(policy) => note_inside(policy, connection, url, seen),
    }
}

fn note_above(policy: &Policy, connection: usize, url: usize, seen: &mut ReachSeen) {
    let wraps = fits(policy, connection % CONNECTIONS, url % URLS);
    seen.note_all(&[
        (AskedConnection32, connection == CONNECTIONS),
        (AskedConnectionAbove, connection > CONNECTIONS),
        (AskedConnectionWraps, url < URLS && wraps),
        (AskedUrl64, url == URLS),
        (AskedUrlAbove, url > URLS),
        (AskedUrlWraps, connection < CONNECTIONS && wraps),
        (AskedBothAbove, connection >= CONNECTIONS && url >= URLS),
    ]);
}

fn note_inside(policy: &Policy, connection: usize, url: usize, seen: &mut ReachSeen) {
    let is_fit = fits(policy, connection, url);
    let is_partner_fit = policy.partner(url).map(|it| fits(policy, connection, it));
    seen.note(match policy.url(url) {
        None => AskedEmpty,
        Some(_) if is_fit => AskedFits,
        Some(_) => AskedForbidden,
    });
    seen.note_all(&[
        (AskedRowAlone, is_fit && is_partner_fit == Some(false)),
        (AskedPartnerAlone, !is_fit && is_partner_fit == Some(true)),
    ]);
}
