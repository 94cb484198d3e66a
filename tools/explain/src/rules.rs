//! The questions that are asked of a policy's sets. Each answers with every condition that fails, in the order of `include/monitor.h`; none
//! fails where it is allowed. The first of them, and of its endpoints the lowest, is what the library tells.
//!
//! A URL is judged as it is given: where the record or step names one that has a partner, ask [`Policy::asked_for`] first. Whether URL, connection,
//! host and key are there is asked elsewhere and before: of one that is not, nothing is said.

use crate::label::{ConnectionLabels, CookieLabels, UrlLabels};
use crate::lack::Lack;
use zolherima::Policy;

/// A load of the URL on the connection.
pub fn load(policy: &Policy, connection: u32, url: u32) -> Vec<Lack> {
    let Some((on, at)) = connection_and_url(policy, connection, url) else {
        return Vec::new();
    };
    failing([
        at.readers.must_hold(on.readers),
        on.writers.must_hold_message(&at),
    ])
}

/// A redirect of the connection to the target.
pub fn redirect(policy: &Policy, connection: u32, target: u32) -> Vec<Lack> {
    let Some((on, at)) = connection_and_url(policy, connection, target) else {
        return Vec::new();
    };
    failing([
        on.readers.must_hold_event(&at),
        at.readers.must_hold(on.readers),
        on.writers.must_hold_message(&at),
        unless_entry(&at, at.writers.must_hold(on.writers)),
    ])
}

/// Steps 5 and 7: a script that runs on a connection requests the URL on this or another one.
pub fn request(policy: &Policy, running_on: u32, url: u32, connection: u32) -> Vec<Lack> {
    let (Some(script), Some((on, at))) = (
        ConnectionLabels::of(policy, running_on),
        connection_and_url(policy, connection, url),
    ) else {
        return Vec::new();
    };
    failing([
        script.script_readers.must_hold_event(&at),
        script.script_readers.must_hold(on.readers),
        at.readers.must_hold(on.readers),
        on.writers.must_hold_message(&at),
        on.writers.must_hold(script.writers),
        unless_entry(&at, at.writers.must_hold(script.writers)),
    ])
}

/// Step 3: a script that runs on the connection reads the cookie.
pub fn read(policy: &Policy, running_on: u32, host: u32, key: u32) -> Vec<Lack> {
    let Some((script, cookie)) = connection_and_cookie(policy, running_on, host, key) else {
        return Vec::new();
    };
    failing([
        cookie.readers.must_hold(script.script_readers),
        script.writers.must_hold(cookie.writers),
    ])
}

/// Step 4: a script that runs on the connection writes the cookie.
pub fn write(policy: &Policy, running_on: u32, host: u32, key: u32) -> Vec<Lack> {
    let Some((script, cookie)) = connection_and_cookie(policy, running_on, host, key) else {
        return Vec::new();
    };
    failing([
        script.script_readers.must_hold(cookie.readers),
        cookie.writers.must_hold(script.writers),
    ])
}

/// A response or redirect on the connection brings the cookie.
pub fn store(policy: &Policy, connection: u32, host: u32, key: u32) -> Vec<Lack> {
    let Some((on, cookie)) = connection_and_cookie(policy, connection, host, key) else {
        return Vec::new();
    };
    failing([
        on.readers.must_hold(cookie.readers),
        cookie.writers.must_hold(on.writers),
    ])
}

/// A request to the URL carries the cookie, where it is present.
pub fn carry(policy: &Policy, url: u32, host: u32, key: u32) -> Vec<Lack> {
    let (Some(at), Some(cookie)) = (
        UrlLabels::of(policy, url),
        CookieLabels::of(policy, host, key),
    ) else {
        return Vec::new();
    };
    failing([cookie.readers.must_hold_message(&at)])
}

/// Who shaped the way to an entry need not be among its writers.
fn unless_entry(at: &UrlLabels, condition: Option<Lack>) -> Option<Lack> {
    condition.filter(|_| !at.is_entry)
}

fn connection_and_url(
    policy: &Policy,
    connection: u32,
    url: u32,
) -> Option<(ConnectionLabels, UrlLabels)> {
    Some((
        ConnectionLabels::of(policy, connection)?,
        UrlLabels::of(policy, url)?,
    ))
}

fn connection_and_cookie(
    policy: &Policy,
    connection: u32,
    host: u32,
    key: u32,
) -> Option<(ConnectionLabels, CookieLabels)> {
    Some((
        ConnectionLabels::of(policy, connection)?,
        CookieLabels::of(policy, host, key)?,
    ))
}

fn failing<const CONDITIONS: usize>(conditions: [Option<Lack>; CONDITIONS]) -> Vec<Lack> {
    conditions.into_iter().flatten().collect()
}
