//! What is measured: sessions, each a policy, a script table, a state to start from, and records.

use cases::labels::{
    ALL, COOKIES_AT, HOSTS, HTTPS_HOSTS_AT, NO_PARTNER, OPEN_AT, PARTNERS_AT, POLICY_WORDS,
    PRESENT_AT, SCRIPTS_BYTES, STATE_WORDS, URLS,
};
use cases::policy::{document, list_hosts, policy_of, Style};
use cases::record::{make_accepted, make_record};
use cases::session::MakeRecord;
use cases::{state, Random, Setting};
use reference::layout::SCRIPT_BYTES;

#[derive(Clone)]
pub struct Session {
    pub policy: Vec<u32>,
    pub scripts: Vec<u8>,
    pub state: Vec<u32>,
    pub records: Vec<Vec<u8>>,
}

pub struct Workload {
    pub name: &'static str,
    pub sessions: Vec<Session>,
    /// Whether the bar is set on it; the others only tell what calls cost.
    pub barred: bool,
}

const SEED: u64 = 2026;
const DENSE_POLICIES: usize = 16;
const DENSE_RECORDS: usize = 64;

type Named = (&'static str, Vec<Session>);

pub fn all() -> Vec<Workload> {
    let named = |barred| {
        move |(name, sessions)| Workload {
            name,
            sessions,
            barred,
        }
    };
    let barred = with_bar().into_iter().map(named(true));
    barred
        .chain(without_bar().into_iter().map(named(false)))
        .collect()
}

fn with_bar() -> Vec<Named> {
    let dense = dense(make_record, dense_policy);
    let accepted = self::dense(make_accepted, dense_policy);
    let small = small_post();
    vec![
        ("policy P, a customer's session", vec![small.clone()]),
        ("dense policies, records of every kind", dense.clone()),
        ("dense policies, records that are accepted", accepted),
        (
            "policy P, refused by its form (number 10)",
            vec![with(&small, &[])],
        ),
        (
            "dense policies, refused by their form (number 10)",
            each_with(&dense, &[]),
        ),
    ]
}

fn without_bar() -> Vec<Named> {
    let listing = dense(make_record, listing_policy);
    let requests = response(REQUESTS);
    vec![
        (
            "dense policies that list hosts, records of every kind",
            listing,
        ),
        (
            "a load that carries eight cookies",
            vec![with(&everything(), &[0x03, 0, 0])],
        ),
        (
            "everything open, refused by its form",
            vec![with(&everything(), &[])],
        ),
        (
            "eight cookies and a script of 32 additions",
            vec![response(ADDITIONS)],
        ),
        (
            "eight cookies and 32 reads and writes",
            vec![response(COOKIES)],
        ),
        (
            "eight cookies and 32 requests: 1,184 bytes",
            vec![requests.clone()],
        ),
        (
            "the same, every host always https",
            vec![always_https(requests)],
        ),
    ]
}

/// The same session, with one record fed again and again.
pub fn with(session: &Session, record: &[u8]) -> Session {
    Session {
        records: vec![record.to_vec()],
        ..session.clone()
    }
}

fn each_with(sessions: &[Session], record: &[u8]) -> Vec<Session> {
    sessions
        .iter()
        .map(|session| with(session, record))
        .collect()
}

/// A card is topped up under document 01's policy P. Ten records are accepted, three are refused: 8, 7 and 11.
pub fn small_post() -> Session {
    let records: [&[u8]; 13] = [
        &[0x03, 0, 0],                      // the page is loaded
        &[0x0f, 0, 0, 0x01, 0, 0, 0, 7, 0], // its response brings a cookie, and runs a script
        &[0x03, 0, 0],                      // loaded again, with the cookie
        &[0x27, 0, 0, 0x01, 0, 0, 0, 9, 2], // a redirect to another host is turned away
        &[0x0b, 0, 0, 1],                   // the response runs a script that counts
        &[0x03, 1, 1],                      // a page of the caterer
        &[0x23, 1, 1, 1],                   // is redirected to itself
        &[0x0b, 1, 1, 2],                   // and its script asks for more
        &[0x13, 1, 1, 0, 0, 0, 5],          // which arrives
        &[0x03, 3, 3],                      // the plain page of the post
        &[0x0b, 3, 3, 0],                   // with a script that ends at once
        &[0x0b, 3, 3, 0],                   // again, though nothing is awaited
        &[0x03, 0],                         // a torn record
    ];
    let mut scripts = vec![0; SCRIPTS_BYTES];
    set_script(
        &mut scripts,
        1,
        &[
            [1, 0, 0, 3],
            [1, 1, 0, 4],
            [2, 2, 0, 1],
            [6, 3, 1, 0],
            [1, 2, 0, 9],
            [4, 1, 2, 0],
        ],
    );
    set_script(&mut scripts, 2, &[[1, 0, 1, 0], [5, 1, 1, 3]]);
    set_script(&mut scripts, 3, &[[6, 0, 2, 0], [2, 1, 0, 0], [4, 0, 1, 0]]);
    Session {
        policy: document(),
        scripts,
        state: vec![0; STATE_WORDS],
        records: records.iter().map(|record| record.to_vec()).collect(),
    }
}

fn set_script(scripts: &mut [u8], script: usize, steps: &[[u8; 4]]) {
    scripts[SCRIPT_BYTES * script..][..4 * steps.len()].copy_from_slice(steps.as_flattened());
}

/// Random policies with every URL and connection in use, and states with most cookies and connections.
fn dense(make: MakeRecord, policy: fn(&Random) -> Vec<u32>) -> Vec<Session> {
    (0..DENSE_POLICIES as u64)
        .map(|case| dense_session(&Random::of_case(SEED, case), make, policy))
        .collect()
}

fn dense_policy(random: &Random) -> Vec<u32> {
    policy_of(Style::Dense, random)
}

/// The same with hosts that are always https.
fn listing_policy(random: &Random) -> Vec<u32> {
    let mut policy = dense_policy(random);
    list_hosts(&mut policy, random);
    policy
}

fn dense_session(random: &Random, make: MakeRecord, policy: fn(&Random) -> Vec<u32>) -> Session {
    let setting = Setting::over(policy(random), random);
    let mut session = cases::Session::start(setting);
    state::make_sound(&session.setting, &mut session.state, random);
    let start = session.state.clone();
    let mut records = Vec::new();
    for _ in 0..DENSE_RECORDS {
        let record = session.record(make, random);
        session.feed(&record);
        records.push(record);
    }
    let setting = session.setting;
    Session {
        policy: setting.policy,
        scripts: setting.scripts,
        state: start,
        records,
    }
}

pub const REQUESTS: u8 = 0;
pub const ADDITIONS: u8 = 1;
const COOKIES: u8 = 2;

/// Every URL, connection and cookie is there and open to all, every cookie is present, every connection awaits a document.
pub fn everything() -> Session {
    let mut policy = vec![ALL; POLICY_WORDS];
    for (url, row) in policy[..COOKIES_AT].chunks_exact_mut(3).enumerate() {
        row[0] = url as u32 % 32;
    }
    policy[HTTPS_HOSTS_AT] = 0;
    policy[PARTNERS_AT..].fill(NO_PARTNER);
    let mut scripts = vec![0; SCRIPTS_BYTES];
    let requests: Vec<[u8; 4]> = (0..32).map(|at| [5, at, at, 15]).collect();
    set_script(&mut scripts, REQUESTS as usize, &requests);
    set_script(&mut scripts, ADDITIONS as usize, &[[2, 0, 1, 2]; 32]);
    let cookies: Vec<[u8; 4]> = (0..32)
        .map(|at| [3 + at % 2, at / 2 % 4, at / 2 % 4, 0])
        .collect();
    set_script(&mut scripts, COOKIES as usize, &cookies);
    let mut state = vec![ALL; STATE_WORDS];
    state[PRESENT_AT..OPEN_AT].fill(0xff);
    for (connection, word) in state[OPEN_AT..].iter_mut().enumerate() {
        *word = 0x0100_0000 | connection as u32;
    }
    Session {
        policy,
        scripts,
        state,
        records: Vec::new(),
    }
}

/// A document's response on connection 0 that delivers every cookie and runs a script.
fn response(script: u8) -> Session {
    let mut record = vec![0x0f, 0, 0, 0xff];
    record.extend([1; 32]);
    record.push(script);
    with(&everything(), &record)
}

/// Each http row has the https row of its host for a partner; row n of `everything` has address n modulo 32.
fn always_https(mut session: Session) -> Session {
    session.policy[HTTPS_HOSTS_AT] = (1 << HOSTS) - 1;
    for url in (0..URLS).filter(|url| url % (2 * HOSTS) < HOSTS) {
        session.policy[PARTNERS_AT + url] = (url + HOSTS) as u32;
    }
    session
}
