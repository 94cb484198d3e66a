//! The listed calls of `monitor_edges`: both monitors give what that program is held to. The comments at the top of its file stdin say what
//! a directive is.

mod common;

use std::fmt::Write;
use std::fs;

use common::{Feed, FEEDS};
use reference::layout::{
    NO_PARTNER, OUTPUT_BYTES, POLICY_PARTNERS, POLICY_WORDS, SCRIPTS_BYTES, STATE_WORDS, URLS,
};
use reference::Answer;

const FOLDER: &str = concat!(env!("CARGO_MANIFEST_DIR"), "/../../crates/monitor_edges");

/// Each buffer has room for so much more than is right.
const SPARE: usize = 128;

/// What the directives set.
struct Lent {
    policy: Vec<u32>,
    /// A step to a word, the operation in the most significant byte.
    steps: Vec<u32>,
    state: Vec<u32>,
    /// Of policy, script table, state and output, and the byte that fills the output.
    lengths: [u32; 5],
}

impl Lent {
    fn new() -> Lent {
        let mut policy = vec![0; POLICY_WORDS + SPARE];
        policy[POLICY_PARTNERS..POLICY_WORDS].fill(NO_PARTNER);
        for url in policy.chunks_exact_mut(3).take(URLS) {
            url[0] = 255;
        }
        let right = [POLICY_WORDS, SCRIPTS_BYTES, STATE_WORDS, OUTPUT_BYTES, 0xEE];
        Lent {
            policy,
            steps: vec![0; SCRIPTS_BYTES / 4 + SPARE],
            state: vec![0; STATE_WORDS + SPARE],
            lengths: right.map(|length| length as u32),
        }
    }

    /// Feeds a record; the answer, and state and output after it. A length is lent as far as there is room.
    fn call(&self, feed: Feed, record: &[u8]) -> (Answer, Vec<u32>, Vec<u8>) {
        let [policy, scripts, words, bytes, fill] = self.lengths.map(|length| length as usize);
        let table: Vec<u8> = self
            .steps
            .iter()
            .flat_map(|step| step.to_be_bytes())
            .collect();
        let mut state = self.state.clone();
        let mut out = vec![fill as u8; OUTPUT_BYTES + SPARE];
        let (words, bytes) = (words.min(state.len()), bytes.min(out.len()));
        let answer = feed(
            &self.policy[..policy.min(self.policy.len())],
            &table[..scripts.min(table.len())],
            &mut state[..words],
            record,
            &mut out[..bytes],
        );
        (answer, state, out)
    }

    /// A record's line: the answer, the words of the state that changed and the output that is counted.
    fn feed(&mut self, feed: Feed, line: &str) -> String {
        let (answer, state, out) = self.call(feed, &bytes(line));
        let Answer {
            number,
            bytes,
            steps,
            missing,
        } = answer;
        let mut text = format!("{line} : {number} {bytes} {steps} {missing} :");
        let changed = state.iter().zip(&self.state).enumerate();
        for (place, (word, _)) in changed.filter(|(_, (word, old))| word != old) {
            write!(text, " {place:x}={word:x}").expect("a string takes every line");
        }
        let (sent, rest) = out.split_at(bytes as usize);
        let sent: String = sent.iter().map(|byte| format!(" {byte:02x}")).collect();
        let kept = rest.iter().all(|&byte| u32::from(byte) == self.lengths[4]);
        if line.starts_with('r') {
            self.state = state;
        }
        format!("{text} :{sent}{}\n", if kept { "" } else { " !" })
    }

    /// A record with each map byte, cut at each length: where the number changes.
    fn sweep(&self, feed: Feed, line: &str) -> String {
        let mut text = format!("{line}\n");
        let mut record = bytes(line);
        for map in 0..=255 {
            record[0] = map;
            let mut before = 10;
            for length in 0..=record.len() {
                let number = self.call(feed, &record[..length]).0.number;
                if number != before {
                    text += &format!(" {map} {length} {number}\n");
                }
                before = number;
            }
        }
        text
    }
}

/// The bytes after a directive's letter, two digits each.
fn bytes(line: &str) -> Vec<u8> {
    let digits: Vec<u8> = line[1..]
        .bytes()
        .map(|digit| number(&[digit]) as u8)
        .collect();
    digits
        .chunks(2)
        .map(|pair| 16 * pair[0] + pair[1])
        .collect()
}

fn number(digits: &[u8]) -> u32 {
    let digits = std::str::from_utf8(digits).expect("the file is text");
    u32::from_str_radix(digits, 16).expect("numbers are hexadecimal")
}

/// An index, then the words that go there and after it.
fn set(words: &mut [u32], line: &str) {
    let mut numbers = line[1..].split(' ').map(|word| number(word.as_bytes()));
    let first = numbers.next().expect("an index") as usize;
    for (place, word) in numbers.enumerate() {
        words[first + place] = word;
    }
}

fn printed(feed: Feed, directives: &str) -> String {
    let mut lent = Lent::new();
    let mut text = String::new();
    for line in directives.lines() {
        match line.as_bytes().first() {
            Some(b'z') => lent = Lent::new(),
            Some(b'p') => set(&mut lent.policy, line),
            Some(b's') => set(&mut lent.steps, line),
            Some(b'w') => set(&mut lent.state, line),
            Some(b'l') => set(&mut lent.lengths, line),
            Some(b'r' | b't') => text += &lent.feed(feed, line),
            Some(b'm') => text += &lent.sweep(feed, line),
            _ => text += &format!("{line}\n"),
        }
    }
    text
}

fn file(name: &str) -> String {
    let path = format!("{FOLDER}/{name}");
    fs::read_to_string(&path).unwrap_or_else(|error| panic!("{path}: {error}"))
}

#[test]
fn every_listed_call_gives_what_is_expected() {
    let (directives, expected) = (file("stdin"), file("stdout"));
    for (name, feed) in FEEDS {
        let printed = printed(feed, &directives);
        for (ours, line) in printed.lines().zip(expected.lines()) {
            assert_eq!(ours, line, "{name}");
        }
        assert_eq!(printed.lines().count(), expected.lines().count(), "{name}");
    }
}
