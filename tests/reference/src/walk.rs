//! The program walk: a policy, a script table and a list of records.

use std::fmt::Write;

use crate::layout::*;
use crate::{feed, Answer};

/// What the program walk prints for this standard input.
pub fn walk(input: &[u8]) -> String {
    if input.len() < WALK_SHORTEST {
        return "short\n".to_string();
    }
    if input.len() > WALK_LONGEST {
        return "long\n".to_string();
    }
    let (words, rest) = input.split_at(4 * POLICY_WORDS);
    let (scripts, records) = rest.split_at(SCRIPTS_BYTES);
    let policy = words.chunks(4).map(read_word).collect();
    let mut journey = Journey {
        policy,
        scripts,
        state: vec![0; STATE_WORDS],
        accepted: 0,
        refused: 0,
        text: String::new(),
    };
    journey.run(records);
    journey.text
}

/// Four bytes, most significant first.
pub fn read_word(bytes: &[u8]) -> u32 {
    bytes
        .iter()
        .fold(0, |word, &byte| word << 8 | u32::from(byte))
}

/// A walk under way.
struct Journey<'a> {
    policy: Vec<u32>,
    scripts: &'a [u8],
    state: Vec<u32>,
    accepted: u32,
    refused: u32,
    text: String,
}

impl Journey<'_> {
    /// Feeds the records, each after one length byte, and prints the end.
    fn run(&mut self, mut records: &[u8]) {
        let mut word = "end";
        while let Some((&length, rest)) = records.split_first() {
            let length = usize::from(length);
            if rest.len() < length {
                word = "cut";
                break;
            }
            self.feed_one(&rest[..length]);
            records = &rest[length..];
        }
        let (accepted, refused) = (self.accepted, self.refused);
        self.print(format_args!("{word} {accepted} {refused}"));
    }

    /// One record: its line and a line for each request.
    fn feed_one(&mut self, record: &[u8]) {
        let mut out = vec![0; OUTPUT_BYTES];
        let answer = feed(
            &self.policy,
            self.scripts,
            &mut self.state,
            record,
            &mut out,
        );
        match answer.number {
            0 => self.accepted += 1,
            _ => self.refused += 1,
        }
        let Answer {
            number,
            bytes,
            steps,
            missing,
        } = answer;
        let place = self.accepted + self.refused;
        self.print(format_args!("{place} {number} {bytes} {steps} {missing}"));
        self.print_requests(&out[..bytes as usize]);
    }

    /// A line for each request: URL, connection and key map.
    fn print_requests(&mut self, mut output: &[u8]) {
        while let [map, url, connection, rest @ ..] = output {
            let cookies = map & BIT_COOKIES != 0;
            let keys = if cookies { rest[0] } else { 0 };
            self.print(format_args!("> {url} {connection} {keys:02x}"));
            let handler = map & !BIT_COOKIES == MAP_SCRIPT_REQUEST;
            let length =
                usize::from(cookies) + 4 * keys.count_ones() as usize + usize::from(handler);
            output = &rest[length..];
        }
    }

    fn print(&mut self, line: std::fmt::Arguments) {
        writeln!(self.text, "{line}").expect("a string takes every line");
    }
}
