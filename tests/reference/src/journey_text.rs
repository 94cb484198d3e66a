//! The program journey: a policy and the URLs of a journey.

use std::fmt::Write;

use crate::import::read_number;
use crate::journey::{Failure, Journey, JOURNEY_BAD, NO_CONNECTION};
use crate::layout::{CONNECTIONS, POLICY_WORDS};
use crate::numbers::{POLICY_BAD, READERS_FORBID};
use crate::walk::read_word;

/// What the program journey prints on standard output for these URLs and this
/// standard input.
pub fn journey_text(urls: &[u8], input: &[u8]) -> String {
    let mut text = String::new();
    for line in lines(urls, input) {
        writeln!(text, "{line}").expect("a string takes every line");
    }
    text
}

/// The URLs that these arguments name; `None` where there is no argument, or one
/// is no number. A number above 255 is no byte; 255, which names no URL either,
/// stands for it.
pub fn urls_of(arguments: &[&[u8]]) -> Option<Vec<u8>> {
    if arguments.is_empty() {
        return None;
    }
    let url_of = |argument: &&[u8]| {
        let number = read_number(argument).ok()?;
        Some(u8::try_from(number).unwrap_or(u8::MAX))
    };
    arguments.iter().map(url_of).collect()
}

fn lines(urls: &[u8], input: &[u8]) -> Vec<String> {
    let journey = match Journey::read(&read_policy(input), urls) {
        Ok(journey) => journey,
        Err(refusal) => return vec![refused(refusal.number)],
    };
    match journey.find().connection {
        NO_CONNECTION => none(&journey),
        connection => vec![connection.to_string()],
    }
}

/// The words of a policy. An input of another length is a policy of another
/// length, whatever its words.
pub fn read_policy(input: &[u8]) -> Vec<u32> {
    match input.len() == 4 * POLICY_WORDS {
        true => input.chunks(4).map(read_word).collect(),
        false => Vec::new(),
    }
}

fn refused(number: u32) -> String {
    let why = match number {
        POLICY_BAD => "the policy has the wrong length or is not well formed",
        JOURNEY_BAD => "the journey is empty, longer than 16 URLs, or names a URL without a row",
        _ => unreachable!("the search has no other number"),
    };
    format!("refused {number}: {why}")
}

/// For each connection where it fails, and why.
fn none(journey: &Journey) -> Vec<String> {
    let failures = (0..CONNECTIONS).map(|connection| {
        let failure = journey.first_failure(connection);
        let failure = failure.expect("no connection carries the journey");
        failed(journey, connection, &failure)
    });
    ["none".to_string()].into_iter().chain(failures).collect()
}

fn failed(journey: &Journey, connection: usize, failure: &Failure) -> String {
    let Failure {
        place,
        number,
        missing,
        of_url,
    } = *failure;
    let (url, count) = (journey.urls[place], journey.urls.len());
    let set = match number {
        READERS_FORBID => "readers",
        _ => "writers",
    };
    let owner = match of_url {
        true => format!("URL {}", journey.upgraded(place)),
        false => format!("connection {connection}"),
    };
    format!(
        "{connection}: refused {number} at URL {url} ({} of {count}): \
         endpoint {missing} is missing among the {set} of {owner}",
        place + 1
    )
}
