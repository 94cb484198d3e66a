//! What a case changes of policy P, of the script table and of the state, and what it asks of them.

#![allow(dead_code)] // no file of tests needs all of it

use reference::layout::{
    ENTRY, NO_PARTNER, OUTPUT_BYTES, POLICY_CONNECTIONS, POLICY_HTTPS_HOSTS, POLICY_PARTNERS,
    STATE_CONNECTIONS,
};
use reference::{feed_noting, Event, Seen};

use crate::common::Session;

/// Every endpoint.
pub const ALL: u32 = u32::MAX;

/// A set of endpoints.
pub fn set(endpoints: &[u32]) -> u32 {
    endpoints
        .iter()
        .fold(0, |set, endpoint| set | 1 << endpoint)
}

/// Address word, readers and writers of a URL.
pub fn set_row(session: &mut Session, row: usize, words: [u32; 3]) {
    session.policy[3 * row..][..3].copy_from_slice(&words);
}

/// Makes a URL an entry, or one that is none; its address stays.
pub fn set_entry(session: &mut Session, row: usize, is_entry: bool) {
    let word = &mut session.policy[3 * row];
    *word = *word % ENTRY + if is_entry { ENTRY } else { 0 };
}

/// Readers, who are the script readers too, and writers of a connection.
pub fn set_connection(session: &mut Session, connection: usize, readers: u32, writers: u32) {
    let words = [readers, readers, writers];
    session.policy[POLICY_CONNECTIONS + 3 * connection..][..3].copy_from_slice(&words);
}

/// Gives a connection these script readers; its readers stay.
pub fn set_script_readers(session: &mut Session, connection: usize, script_readers: u32) {
    session.policy[POLICY_CONNECTIONS + 3 * connection + 1] = script_readers;
}

/// Lists these hosts alone, and gives these rows alone a partner.
pub fn list(session: &mut Session, hosts: u32, partners: &[(usize, u32)]) {
    session.policy[POLICY_HTTPS_HOSTS] = hosts;
    session.policy[POLICY_PARTNERS..].fill(NO_PARTNER);
    for &(row, partner) in partners {
        session.policy[POLICY_PARTNERS + row] = partner;
    }
}

/// The word of a connection.
pub fn word(session: &Session, connection: usize) -> u32 {
    session.state[STATE_CONNECTIONS + connection]
}

pub fn open(session: &mut Session, connection: usize, word: u32) {
    session.state[STATE_CONNECTIONS + connection] = word;
}

/// Gives script 0 these steps.
pub fn set_script(session: &mut Session, steps: &[[u8; 4]]) {
    let bytes = steps.concat();
    session.scripts.fill(0);
    session.scripts[..bytes.len()].copy_from_slice(&bytes);
}

/// The record has this event; the session stays as it is.
pub fn notes(session: &Session, record: &[u8], event: Event) {
    let count = seen(session, record).count(event);
    assert_eq!(count, 1, "{record:02x?}: {}", event.name());
}

/// What is noted of the record; the session stays as it is.
pub fn seen(session: &Session, record: &[u8]) -> Seen {
    let mut seen = Seen::new();
    feed_noting(
        &session.policy,
        &session.scripts,
        &mut session.state.clone(),
        record,
        &mut [0; OUTPUT_BYTES],
        &mut seen,
    );
    seen
}

/// An empty record has 10 where the policy is well formed, and 2 where it is not.
pub fn is_well_formed(session: &mut Session) -> bool {
    match session.refuse(&[]) {
        10 => true,
        2 => false,
        number => panic!("an empty record has {number}"),
    }
}

/// Number 2, by this clause.
pub fn breaks(session: &Session, clause: Event) {
    let refused = !is_well_formed(&mut session.clone());
    let count = seen(session, &[]).count(clause);
    assert_eq!((refused, count), (true, 1), "{}", clause.name());
}
