//! Requests that go out.

use crate::entry;
use crate::layout::*;
use crate::policy::{CookieTag, Policy, Url};
use crate::rules::Rules;
use crate::seen::{Event, Seen};
use crate::state::State;

/// Appends the request for what is pending on the connection. Gives the
/// cookies that it carries.
pub fn write_request(
    rules: &dyn Rules,
    policy: &Policy,
    state: &State,
    connection: usize,
    output: &mut Vec<u8>,
    seen: &mut Seen,
) -> Vec<(usize, u32)> {
    let pending = state.pending[connection].expect("a request has an open connection");
    let url = policy
        .url(pending.url)
        .expect("an open connection has a URL");
    let cookies = carried(rules, policy, state, url, seen);
    let map = pending.kind.request_map();
    let numbers = [pending.url as u8, connection as u8];
    if cookies.is_empty() {
        seen.note(Event::RequestPlain);
        entry::note(url, Event::RequestPlainEntry, seen);
        output.push(map);
        output.extend(numbers);
    } else {
        seen.note(Event::RequestCookies);
        entry::note(url, Event::RequestCookiesEntry, seen);
        output.push(map | BIT_COOKIES);
        output.extend(numbers);
        write_cookies(&cookies, output);
    }
    if map & BIT_SCRIPT != 0 {
        output.push(pending.handler as u8);
    }
    cookies
}

/// A request carries every present cookie of the URL's host whose readers
/// hold the URL's message endpoint.
fn carried(
    rules: &dyn Rules,
    policy: &Policy,
    state: &State,
    url: &Url,
    seen: &mut Seen,
) -> Vec<(usize, u32)> {
    let mut cookies = Vec::new();
    for key in 0..KEYS {
        let tag = policy.cookie(url.host(), key);
        match state.cookie(url.host(), key) {
            None => seen.note(Event::NotCarriedAbsent),
            Some(_) if !rules.carry(tag, url) => {
                seen.note(Event::NotCarriedReaders);
                entry::note(url, Event::NotCarriedReadersEntry, seen);
            }
            Some(value) => {
                note_carried(url, tag, seen);
                cookies.push((key, value));
            }
        }
    }
    cookies
}

/// What might be thought to keep a cookie back.
fn note_carried(url: &Url, tag: &CookieTag, seen: &mut Seen) {
    if !tag.readers.within(url.readers) {
        seen.note(Event::CarriedOutside);
    }
    if !url.readers.holds(url.message_endpoint()) {
        seen.note(Event::CarriedMessage);
    }
}

/// A key map byte, then the values, most significant byte first.
fn write_cookies(cookies: &[(usize, u32)], output: &mut Vec<u8>) {
    output.push(cookies.iter().fold(0, |map, (key, _)| map | 1 << key));
    for (_, value) in cookies {
        output.extend(value.to_be_bytes());
    }
}
