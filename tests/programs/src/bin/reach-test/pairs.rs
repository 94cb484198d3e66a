//! What is claimed of two policies that are well formed: where one URL differs, no count moves by more than 1 and the total by no more than 32;
//! where one connection differs, its count alone moves, and the total by no more than 64; where only such words differ as no count looks at,
//! nothing moves.

use cases::labels::{
    CONNECTIONS, CONNECTIONS_AT, COOKIES_AT, ENTRY, HTTPS_HOSTS_AT, PARTNERS_AT, URLS,
};
use cases::reach::{Change, Pair};
use reference::numbers::ACCEPTED;
use reference::Reach;

reference::events! {
    enum PairEvent counted in PairSeen;

    UrlUp32: "with one URL the total goes up by 32",
    UrlDown32: "with one URL the total goes down by 32",
    UrlUp: "with one URL the total goes up by 1 to 31",
    UrlDown: "with one URL the total goes down by 1 to 31",
    UrlStays: "one URL differs, and no count moves",
    UrlMixed: "with one URL a count goes up and another one down",
    UrlAdded: "a URL stands where the row was empty, and the total goes up",
    UrlTaken: "a row is empty where a URL stood, and the total goes down",
    UrlMoved: "a URL has another address, and the total moves",
    UrlReaders: "a URL has other readers and the same address, and the total moves",
    UrlPartner: "a URL that is another one's partner differs, and the total moves",
    Url0: "URL 0 differs, and the total moves",
    Url63: "URL 63 differs, and the total moves",
    UrlOnly: "one URL differs and nothing else",
    UrlAndCookies: "one URL differs, and labels of cookies too",
    UrlAndScriptReaders: "one URL differs, and script readers too",
    UrlAndHosts: "one URL differs, and the listed hosts too",
    UrlAndPartners: "one URL differs, and partners of other URLs too",

    ConnectionUp64: "with one connection the total goes up by 64",
    ConnectionDown64: "with one connection the total goes down by 64",
    ConnectionUp: "with one connection the total goes up by 1 to 63",
    ConnectionDown: "with one connection the total goes down by 1 to 63",
    ConnectionStays: "one connection differs, and no count moves",
    ConnectionReaders: "a connection has other readers and the same writers, and the total moves",
    ConnectionWriters: "a connection has other writers and the same readers, and the total moves",
    Connection0: "connection 0 differs, and the total moves",
    Connection31: "connection 31 differs, and the total moves",
    ConnectionAndCookies: "one connection differs, and labels of cookies too",
    ConnectionAndScriptReaders: "one connection differs, and script readers of others too",
    ConnectionAndHosts: "one connection differs, and the listed hosts too",

    Cookies: "labels of cookies alone differ, and a URL is reached",
    ScriptReaders: "script readers alone differ, and a URL is reached",
    Hosts: "listed hosts alone differ, with their partners, and a URL is reached",
    Partners: "partners alone differ, and a URL is reached",
    UrlWriters: "writers of URLs alone differ, and a URL is reached",
    Entries: "who is an entry alone differs, and a URL is reached",
}

/// What two policies differ in.
struct Differing {
    /// URLs, in any of the three words.
    urls: Vec<usize>,
    /// URLs, in host, scheme or readers.
    places: Vec<usize>,
    url_writers: Vec<usize>,
    entries: Vec<usize>,
    /// Connections, in readers or writers.
    connections: Vec<usize>,
    script_readers: Vec<usize>,
    cookies: bool,
    hosts: bool,
    partners: Vec<usize>,
}

/// The numbers below a count of which this differs in two policies.
fn differing<T: PartialEq>(
    pair: &Pair,
    count: usize,
    part: impl Fn(&[u32], usize) -> T,
) -> Vec<usize> {
    let differs = |&number: &usize| part(&pair.before, number) != part(&pair.after, number);
    (0..count).filter(differs).collect()
}

impl Differing {
    fn of(pair: &Pair) -> Differing {
        let url = |part: fn(&[u32]) -> [u32; 3]| {
            differing(pair, URLS, move |policy, row| part(&policy[3 * row..]))
        };
        let connection = |part: fn(&[u32]) -> [u32; 2]| {
            let sets = move |policy: &[u32], number| part(&policy[CONNECTIONS_AT + 3 * number..]);
            differing(pair, CONNECTIONS, sets)
        };
        let Pair { before, after, .. } = pair;
        let cookies = COOKIES_AT..CONNECTIONS_AT;
        Differing {
            urls: url(|row| [row[0], row[1], row[2]]),
            places: url(|row| [address(row[0]), row[1], 0]),
            url_writers: url(|row| [row[2], 0, 0]),
            entries: url(|row| [row[0] - address(row[0]), 0, 0]),
            connections: connection(|sets| [sets[0], sets[2]]),
            script_readers: connection(|sets| [sets[1], 0]),
            cookies: before[cookies.clone()] != after[cookies],
            hosts: before[HTTPS_HOSTS_AT] != after[HTTPS_HOSTS_AT],
            partners: differing(pair, URLS, |policy, row| policy[PARTNERS_AT + row]),
        }
    }

    /// Whether the pair is one that a claim speaks of.
    fn is_of(&self, change: Change) -> bool {
        match change {
            Change::Url => self.urls.len() <= 1 && self.connections.is_empty(),
            Change::Connection => self.connections.len() <= 1 && self.urls.is_empty(),
            Change::Rest => self.places.is_empty() && self.connections.is_empty(),
        }
    }

    /// How many sorts of words differ that no count looks at.
    fn rest(&self) -> usize {
        let is_listing = self.hosts || !self.partners.is_empty();
        let sorts = [
            self.cookies,
            is_listing,
            !self.script_readers.is_empty(),
            !self.url_writers.is_empty(),
            !self.entries.is_empty(),
        ];
        sorts.into_iter().filter(|differs| *differs).count()
    }
}

/// The address of an address word; of an empty row, that word.
fn address(word: u32) -> u32 {
    match word < 2 * ENTRY {
        true => word % ENTRY,
        false => word,
    }
}

/// By how much the counts and the total go up.
struct Moves {
    counts: Vec<i64>,
    total: i64,
}

impl Moves {
    fn of([before, after]: &[Reach; 2]) -> Moves {
        let up = |before: u32, after: u32| i64::from(after) - i64::from(before);
        let counts = before.urls.iter().zip(after.urls);
        Moves {
            counts: counts.map(|(&before, after)| up(before, after)).collect(),
            total: up(before.all, after.all),
        }
    }

    fn moves(&self, connection: usize) -> bool {
        self.counts[connection] != 0
    }
}

/// The most that a total moves with a URL, and with a connection.
const WITH_URL: i64 = CONNECTIONS as i64;
const WITH_CONNECTION: i64 = URLS as i64;

/// Holds the tables of a pair to what is claimed of it, and notes what came of it. The reference takes both policies.
pub fn judge(pair: &Pair, tables: &[Reach; 2], seen: &mut PairSeen) -> Result<(), String> {
    let differing = Differing::of(pair);
    if !differing.is_of(pair.change) {
        return Err(format!("no pair: more differs than {:?}", pair.change));
    }
    if tables.iter().any(|table| table.number != ACCEPTED) {
        return Err("library: claim: a policy of the pair is refused".to_string());
    }
    let moves = Moves::of(tables);
    let claimed = match pair.change {
        Change::Url => with_url(&moves),
        Change::Connection => with_connection(&moves, &differing.connections),
        Change::Rest => with_rest(&moves),
    };
    claimed.map_err(|what| format!("library: claim: {what}"))?;
    match pair.change {
        Change::Url => note_url(pair, &differing, &moves, seen),
        Change::Connection => note_connection(pair, &differing, &moves, seen),
        Change::Rest => note_rest(&differing, tables[0].all > 0, seen),
    }
    Ok(())
}

fn with_url(moves: &Moves) -> Result<(), String> {
    if let Some(connection) = moves.counts.iter().position(|by| by.abs() > 1) {
        return Err(format!(
            "with one URL the count of connection {connection} moves by {}",
            moves.counts[connection]
        ));
    }
    within_bound("URL", moves.total, WITH_URL)
}

fn with_connection(moves: &Moves, connections: &[usize]) -> Result<(), String> {
    let others = (0..CONNECTIONS).filter(|other| !connections.contains(other));
    if let Some(other) = others.into_iter().find(|&other| moves.moves(other)) {
        return Err(format!(
            "with connections {connections:?} the count of {other} moves"
        ));
    }
    within_bound("connection", moves.total, WITH_CONNECTION)
}

fn within_bound(what: &str, total: i64, bound: i64) -> Result<(), String> {
    match total.abs() <= bound {
        true => Ok(()),
        false => Err(format!("with one {what} the total moves by {total}")),
    }
}

fn with_rest(moves: &Moves) -> Result<(), String> {
    match moves.total != 0 || (0..CONNECTIONS).any(|connection| moves.moves(connection)) {
        true => Err("counts move with words that none looks at".to_string()),
        false => Ok(()),
    }
}

fn note_url(pair: &Pair, differing: &Differing, moves: &Moves, seen: &mut PairSeen) {
    use PairEvent::*;
    let &[row] = &differing.urls[..] else { return };
    let [before, after] = [&pair.before, &pair.after].map(|policy| &policy[3 * row..]);
    let is_url = |row: &[u32]| row[0] < 2 * ENTRY;
    let are_urls = is_url(before) && is_url(after);
    let is_partner = |policy: &[u32]| policy[PARTNERS_AT..].contains(&(row as u32));
    let moved = moves.total != 0;
    let is_moved = address(before[0]) != address(after[0]);
    seen.note_all(&[
        (UrlUp32, moves.total == WITH_URL),
        (UrlDown32, moves.total == -WITH_URL),
        (UrlUp, (1..WITH_URL).contains(&moves.total)),
        (UrlDown, (1..WITH_URL).contains(&-moves.total)),
        (UrlStays, moves.counts.iter().all(|by| *by == 0)),
        (UrlMixed, [1, -1].iter().all(|by| moves.counts.contains(by))),
        (UrlAdded, !is_url(before) && moves.total > 0),
        (UrlTaken, !is_url(after) && moves.total < 0),
        (UrlMoved, are_urls && is_moved && moved),
        (UrlReaders, are_urls && !is_moved && moved),
        (
            UrlPartner,
            is_partner(&pair.before) && is_partner(&pair.after) && moved,
        ),
        (Url0, row == 0 && moved),
        (Url63, row == 63 && moved),
    ]);
    note_url_and_rest(row, differing, seen);
}

fn note_url_and_rest(row: usize, differing: &Differing, seen: &mut PairSeen) {
    use PairEvent::*;
    let is_cookies = differing.cookies;
    let is_scripts = !differing.script_readers.is_empty();
    let is_partners = differing.partners.iter().any(|other| *other != row);
    let is_listing = differing.hosts || !differing.partners.is_empty();
    seen.note_all(&[
        (UrlOnly, !is_cookies && !is_scripts && !is_listing),
        (UrlAndCookies, is_cookies),
        (UrlAndScriptReaders, is_scripts),
        (UrlAndHosts, differing.hosts),
        (UrlAndPartners, is_partners),
    ]);
}

fn note_connection(pair: &Pair, differing: &Differing, moves: &Moves, seen: &mut PairSeen) {
    use PairEvent::*;
    let &[connection] = &differing.connections[..] else {
        return;
    };
    let at = CONNECTIONS_AT + 3 * connection;
    let is_same = |set: usize| pair.before[at + set] == pair.after[at + set];
    let moved = moves.total != 0;
    let is_other = |other: &usize| *other != connection;
    seen.note_all(&[
        (ConnectionUp64, moves.total == WITH_CONNECTION),
        (ConnectionDown64, moves.total == -WITH_CONNECTION),
        (ConnectionUp, (1..WITH_CONNECTION).contains(&moves.total)),
        (ConnectionDown, (1..WITH_CONNECTION).contains(&-moves.total)),
        (ConnectionStays, !moved),
        (ConnectionReaders, is_same(2) && moved),
        (ConnectionWriters, is_same(0) && moved),
        (Connection0, connection == 0 && moved),
        (Connection31, connection == 31 && moved),
        (ConnectionAndCookies, differing.cookies),
        (
            ConnectionAndScriptReaders,
            differing.script_readers.iter().any(is_other),
        ),
        (ConnectionAndHosts, differing.hosts),
    ]);
}

/// Of one sort of words alone, where a URL is reached.
fn note_rest(differing: &Differing, is_any_reached: bool, seen: &mut PairSeen) {
    use PairEvent::*;
    let is_alone = is_any_reached && differing.rest() == 1;
    let is_partners = !differing.hosts && !differing.partners.is_empty();
    seen.note_all(&[
        (Cookies, is_alone && differing.cookies),
        (
            ScriptReaders,
            is_alone && !differing.script_readers.is_empty(),
        ),
        (Hosts, is_alone && differing.hosts),
        (Partners, is_alone && is_partners),
        (UrlWriters, is_alone && !differing.url_writers.is_empty()),
        (Entries, is_alone && !differing.entries.is_empty()),
    ]);
}
