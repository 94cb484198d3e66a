//! A session to feed, under document 01's small policy P.

#![allow(dead_code)] // no file of tests needs all of it

use cases::policy::document;
use reference::layout::{NONE_MISSING, OUTPUT_BYTES, SCRIPTS_BYTES, STATE_WORDS};
use reference::numbers::{READERS_FORBID, WRITERS_FORBID};
use reference::Answer;

/// Any of the feeding functions.
pub type Feed = fn(&[u32], &[u8], &mut [u32], &[u8], &mut [u8]) -> Answer;

/// Every feeding function, by name.
pub const FEEDS: [(&str, Feed); 2] = [
    ("feed", reference::feed),
    ("feed_fast", reference::feed_fast),
];

/// A case for each feeding function, under policy P from the empty state.
pub fn for_each_feed(case: fn(Session)) {
    for (name, feed) in FEEDS {
        println!("{name}");
        case(Session::new(feed));
    }
}

/// A run of records from the empty state.
#[derive(Clone)]
pub struct Session {
    pub feed: Feed,
    pub policy: Vec<u32>,
    pub scripts: Vec<u8>,
    pub state: Vec<u32>,
}

impl Session {
    /// Policy P, a zero script table, the empty state.
    pub fn new(feed: Feed) -> Session {
        Session {
            feed,
            policy: document(),
            scripts: vec![0; SCRIPTS_BYTES],
            state: vec![0; STATE_WORDS],
        }
    }

    /// Feeds a record; the answer and the output. Checks what holds of every
    /// answer: a refusal changes nothing, bytes past the output stay, and just
    /// where labels forbid the record an endpoint is missing.
    pub fn answer(&mut self, record: &[u8]) -> (Answer, Vec<u8>) {
        let mut out = vec![0xA5; OUTPUT_BYTES + 16];
        let before = self.state.clone();
        let answer = (self.feed)(
            &self.policy,
            &self.scripts,
            &mut self.state,
            record,
            &mut out,
        );
        let length = answer.bytes as usize;
        assert!(out[length..].iter().all(|&byte| byte == 0xA5));
        if answer.number != 0 {
            assert_eq!((answer.bytes, answer.steps), (0, 0));
            assert_eq!(self.state, before);
        }
        match answer.number {
            READERS_FORBID | WRITERS_FORBID => assert!(answer.missing < 32),
            _ => assert_eq!(answer.missing, NONE_MISSING),
        }
        out.truncate(length);
        (answer, out)
    }

    /// Feeds a record; number, output and steps.
    pub fn feed(&mut self, record: &[u8]) -> (u32, Vec<u8>, u32) {
        let (answer, out) = self.answer(record);
        (answer.number, out, answer.steps)
    }

    /// Feeds a record that is accepted; its output and steps.
    pub fn accept(&mut self, record: &[u8]) -> (Vec<u8>, u32) {
        let (number, out, steps) = self.feed(record);
        assert_eq!(number, 0);
        (out, steps)
    }

    /// Feeds a record that is refused; the number.
    pub fn refuse(&mut self, record: &[u8]) -> u32 {
        let (number, _, _) = self.feed(record);
        assert_ne!(number, 0);
        number
    }

    /// Feeds a record that is refused; the number, and the endpoint that is
    /// missing or 32.
    pub fn refusal(&mut self, record: &[u8]) -> (u32, u32) {
        let (answer, _) = self.answer(record);
        assert_ne!(answer.number, 0);
        (answer.number, answer.missing)
    }
}

/// What walk reads: policy P, a zero script table and these records, each after its length byte.
pub fn walk_input(records: &[u8]) -> Vec<u8> {
    let words = document().into_iter().flat_map(u32::to_be_bytes);
    let mut input: Vec<u8> = words.chain([0; SCRIPTS_BYTES]).collect();
    input.extend(records);
    input
}
