//! From words and bytes to a text.

mod in_use;
mod phrases;

use zolherima::{Endpoints, Policy, Scripts, CONNECTIONS, HOSTS, KEYS, SCRIPTS, STEP_BYTES, URLS};

use crate::names::written;
use in_use::InUse;
use phrases::{record_line, step_line, steps_of};

/// A text that compiles to the same words and bytes. It declares what is in use, by names that are made of the numbers, and says in `step` and
/// `record` what no other words of the language say.
pub fn show(policy: &Policy, scripts: &Scripts, records: &[&[u8]]) -> String {
    let in_use = InUse::of(policy, scripts, records);
    let mut text = hosts(policy, &in_use);
    text.push_str(&cookies(policy, &in_use));
    text.push_str(&urls(policy));
    text.push_str(&connections(policy, &in_use));
    text.push_str(&script_lines(policy, scripts, &in_use));
    text.push_str(&session(policy, records));
    // Each part begins with an empty line.
    text.strip_prefix('\n').unwrap_or(&text).to_string()
}

/// ` number N` where a number is not one more than the last.
#[derive(Default)]
struct Count {
    next: u32,
}

impl Count {
    fn number(&mut self, number: u32) -> String {
        let words = if number == self.next {
            String::new()
        } else {
            format!(" number {number}")
        };
        self.next = number + 1;
        words
    }
}

fn set(set: Endpoints) -> String {
    let host = |host| format!("host{host}");
    written(set, host, |one| {
        format!("{} host{}", one.scheme(), one.host())
    })
}

fn labels(readers: Endpoints, script_readers: Endpoints, writers: Endpoints) -> String {
    let script_readers = if script_readers == readers {
        String::new()
    } else {
        format!("  script readers {}\n", set(script_readers))
    };
    let (readers, writers) = (set(readers), set(writers));
    format!("  readers {readers}\n{script_readers}  writers {writers}\n")
}

fn hosts(policy: &Policy, in_use: &InUse) -> String {
    let mut count = Count::default();
    let mut text = String::new();
    for host in (0..HOSTS as u32).filter(|host| in_use.hosts & 1 << host != 0) {
        let always = if policy.is_always_https(host) {
            " always https"
        } else {
            ""
        };
        text.push_str(&format!("host host{host}{always}{}\n", count.number(host)));
    }
    if text.is_empty() {
        return text;
    }
    format!("\n{text}")
}

fn cookies(policy: &Policy, in_use: &InUse) -> String {
    let hosts = 0..HOSTS as u32;
    hosts.map(|host| cookies_of(policy, in_use, host)).collect()
}

fn cookies_of(policy: &Policy, in_use: &InUse, host: u32) -> String {
    let mut count = Count::default();
    let mut text = String::new();
    let keys = (0..KEYS as u32).filter(|key| in_use.has_cookie(host, *key));
    for (key, it) in keys.filter_map(|key| Some((key, policy.cookie(host, key)?))) {
        let number = count.number(key);
        let labels = labels(it.readers, it.readers, it.writers);
        text.push_str(&format!(
            "\ncookie cookie{key} of host{host}{number}\n{labels}"
        ));
    }
    text
}

fn urls(policy: &Policy) -> String {
    let mut count = Count::default();
    let mut text = String::new();
    let urls = (0..URLS as u32).filter_map(|url| Some((url, policy.url(url)?)));
    for (url, it) in urls {
        let address = format!("{} host{}", it.address.scheme(), it.address.host());
        let entry = if it.is_entry { " entry" } else { "" };
        let number = count.number(url);
        let labels = labels(it.readers, it.readers, it.writers);
        text.push_str(&format!(
            "\nurl url{url} at {address}{entry}{number}\n{labels}"
        ));
        if let Some(partner) = policy.partner(url) {
            text.push_str(&format!("  partner url{partner}\n"));
        }
    }
    text
}

fn connections(policy: &Policy, in_use: &InUse) -> String {
    let mut count = Count::default();
    let mut text = String::new();
    let numbers = (0..CONNECTIONS as u32).filter(|number| in_use.connections & 1 << number != 0);
    for (connection, it) in numbers.filter_map(|number| Some((number, policy.connection(number)?)))
    {
        let number = count.number(connection);
        let labels = labels(it.readers, it.script_readers, it.writers);
        text.push_str(&format!(
            "\nconnection connection{connection}{number}\n{labels}"
        ));
    }
    text
}

fn script_lines(policy: &Policy, scripts: &Scripts, in_use: &InUse) -> String {
    let mut count = Count::default();
    let mut text = String::new();
    for script in (0..SCRIPTS as u32).filter(|script| in_use.scripts & 1 << script != 0) {
        let number = count.number(script);
        let line = |step: [u8; STEP_BYTES]| format!("  {}\n", step_line(policy, step));
        let steps: String = steps_of(scripts, script).into_iter().map(line).collect();
        text.push_str(&format!("\nscript script{script}{number}\n{steps}"));
    }
    text
}

fn session(policy: &Policy, records: &[&[u8]]) -> String {
    if records.is_empty() {
        return String::new();
    }
    let line = |record: &&[u8]| format!("  {}\n", record_line(policy, record));
    let lines: String = records.iter().map(line).collect();
    format!("\nsession\n{lines}")
}
