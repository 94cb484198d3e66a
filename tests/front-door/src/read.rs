//! Reads back what is printed of texts whose names are made of numbers, as `show` makes them.

use zolherima::{Endpoint, Endpoints};

/// The number of a name: `url5`, or `URL 5` where nothing is declared.
pub fn number(name: &str) -> Result<u32, String> {
    let digits = name.trim_start_matches(|sign: char| !sign.is_ascii_digit());
    let number = digits.parse();
    number.map_err(|_| format!("no number: {name:?}"))
}

/// The host and the key of a cookie: `cookie0 of host3`, or `key 0 of host 3`.
pub fn cookie(name: &str) -> Result<(u32, u32), String> {
    let parts = name.split_once(" of ");
    let (key, host) = parts.ok_or_else(|| format!("no cookie: {name:?}"))?;
    Ok((number(host)?, number(key)?))
}

/// A cookie with its value: `cookie0 of host3 = 7`.
pub fn valued(text: &str) -> Result<(u32, u32, u32), String> {
    let parts = text.split_once(" = ");
    let (name, value) = parts.ok_or_else(|| format!("no value: {text:?}"))?;
    let (host, key) = cookie(name)?;
    Ok((host, key, number(value)?))
}

/// A set in the words of the language: `everyone except host0, https host1`.
pub fn set(text: &str) -> Result<Endpoints, String> {
    match (text, text.strip_prefix("everyone except ")) {
        ("everyone", _) => Ok(Endpoints::EVERYONE),
        ("nobody", _) => Ok(Endpoints::NOBODY),
        (_, Some(items)) => Ok(Endpoints::EVERYONE.except(listed(items)?)),
        _ => listed(text),
    }
}

fn listed(items: &str) -> Result<Endpoints, String> {
    let mut sets = items.split(", ").map(item);
    sets.try_fold(Endpoints::NOBODY, |all, set| Ok(all | set?))
}

fn item(text: &str) -> Result<Endpoints, String> {
    let none = || format!("no endpoint: {text:?}");
    let host = number(text)?;
    let [http, https] = [Endpoint::http(host), Endpoint::https(host)];
    let only = |it: Option<Endpoint>| it.map(Endpoints::only).ok_or_else(none);
    match text.split_whitespace().next() {
        Some("http") => only(http),
        Some("https") => only(https),
        _ => Ok(only(http)? | only(https)?),
    }
}

/// What stands between two parts of a text, where it has both.
pub fn between<'t>(text: &'t str, before: &str, after: &str) -> Result<&'t str, String> {
    let rest = text.split_once(before).map(|(_, rest)| rest);
    let found = rest.and_then(|rest| rest.split_once(after));
    let found = found.map(|(found, _)| found);
    found.ok_or_else(|| format!("{text:?} has not both {before:?} and {after:?}"))
}
