//! The importer: what a Set-Cookie line says of one cookie.

use crate::endpoint::{Endpoint, EndpointSet};
use crate::import_line::{cut, Line, Pair};
use crate::import_notes;
use crate::import_seen::{ImportEvent, ImportSeen};
use crate::layout::*;
use crate::numbers::ACCEPTED;

/// The host is above 15.
pub const HOST_UNKNOWN: u32 = 6;
/// The pair has no equals sign, or an empty name.
pub const NO_NAME: u32 = 14;
/// The names have another length, or none equals the name.
pub const NO_KEY: u32 = 15;
/// The value is not one to ten digits that make at most 4,294,967,295.
pub const NO_NUMBER: u32 = 16;

/// Bytes of a key's name; a shorter one ends before its first zero byte.
pub const NAME_BYTES: usize = 16;
/// Bytes of the names of all keys.
pub const NAMES_BYTES: usize = KEYS * NAME_BYTES;
/// The most bytes that the program import reads.
pub const IMPORT_BYTES: usize = 65_536;

/// The most digits of a value.
const DIGITS: usize = 10;

/// What a line says.
#[derive(Clone, Copy, Debug, PartialEq, Eq)]
pub struct Imported {
    /// 0, or the number of the refusal with every other field 0.
    pub number: u32,
    /// The lowest key that has the cookie's name.
    pub key: u32,
    /// The number that the digits of the cookie's value make.
    pub value: u32,
    pub secure: bool,
    pub http_only: bool,
    /// The host's https endpoint with Secure, both of its endpoints without.
    pub readers: u32,
}

impl Imported {
    /// What is told of a line that is turned away.
    pub(crate) fn refused(number: u32) -> Imported {
        Imported {
            number,
            key: 0,
            value: 0,
            secure: false,
            http_only: false,
            readers: 0,
        }
    }
}

/// What the importer is given, with the text taken apart.
pub(crate) struct Given<'a> {
    pub host: u32,
    pub names: &'a [u8],
    pub text: &'a [u8],
    pub line: Line<'a>,
}

/// The first number that applies, and the clause of it.
struct Refusal {
    number: u32,
    clause: ImportEvent,
}

/// Imports the cookie of a Set-Cookie line, whose text after the colon this
/// is, as document 01 reads, rule by rule.
pub fn import(host: u32, names: &[u8], text: &[u8]) -> Imported {
    import_noting(host, names, text, &mut ImportSeen::new())
}

/// Imports a cookie and notes what happened.
pub fn import_noting(host: u32, names: &[u8], text: &[u8], seen: &mut ImportSeen) -> Imported {
    let given = Given {
        host,
        names,
        text,
        line: Line::read(text),
    };
    match judge(&given) {
        Err(Refusal { number, clause }) => {
            seen.note(clause);
            import_notes::note_refused(number, &given, seen);
            Imported::refused(number)
        }
        Ok(imported) => {
            import_notes::note_accepted(&imported, &given, seen);
            imported
        }
    }
}

fn judge(given: &Given) -> Result<Imported, Refusal> {
    let refuse = |number| move |clause| Refusal { number, clause };
    check_host(given.host).map_err(refuse(HOST_UNKNOWN))?;
    let pair = read_pair(given.line.pair).map_err(refuse(NO_NAME))?;
    let key = find_key(given.names, pair.name.trimmed).map_err(refuse(NO_KEY))?;
    let value = read_number(pair.value.trimmed).map_err(refuse(NO_NUMBER))?;
    let secure = given.line.has(b"Secure");
    Ok(Imported {
        number: ACCEPTED,
        key,
        value,
        secure,
        http_only: given.line.has(b"HttpOnly"),
        readers: readers(given.host, secure),
    })
}

fn check_host(host: u32) -> Result<(), ImportEvent> {
    match (host as usize) < HOSTS {
        true => Ok(()),
        false => Err(ImportEvent::HostAbove),
    }
}

/// The pair has an equals sign, and a name before it.
pub(crate) fn read_pair(pair: &[u8]) -> Result<Pair<'_>, ImportEvent> {
    let pair = Pair::read(pair).ok_or(ImportEvent::NoEquals)?;
    match pair.name.trimmed.is_empty() {
        true => Err(ImportEvent::NameEmpty),
        false => Ok(pair),
    }
}

/// The lowest key whose name equals this one, which is not empty.
pub(crate) fn find_key(names: &[u8], name: &[u8]) -> Result<u32, ImportEvent> {
    if names.len() != NAMES_BYTES {
        return Err(ImportEvent::NamesLength);
    }
    match key_names(names).position(|key_name| key_name == name) {
        Some(key) => Ok(key as u32),
        None => Err(ImportEvent::NoKey),
    }
}

/// The names of the keys. Each ends before its first zero byte, or has all 16.
pub(crate) fn key_names(names: &[u8]) -> impl Iterator<Item = &[u8]> {
    names.chunks(NAME_BYTES).map(|bytes| cut(bytes, 0).0)
}

/// One to ten digits that make at most 4,294,967,295. Zeros in front count as
/// digits.
pub(crate) fn read_number(digits: &[u8]) -> Result<u32, ImportEvent> {
    if digits.is_empty() {
        return Err(ImportEvent::ValueEmpty);
    }
    if !digits.iter().all(u8::is_ascii_digit) {
        return Err(ImportEvent::ValueNoDigit);
    }
    if digits.len() > DIGITS {
        return Err(ImportEvent::ValueLong);
    }
    let append = |number: u64, digit: &u8| 10 * number + u64::from(digit - b'0');
    let number = digits.iter().fold(0, append);
    u32::try_from(number).map_err(|_| ImportEvent::ValueAbove)
}

/// Who may read the cookie: https at its host, and http too without Secure.
fn readers(host: u32, secure: bool) -> u32 {
    let http = EndpointSet::of(Endpoint(host));
    let https = EndpointSet::of(Endpoint(HOSTS as u32 + host));
    match secure {
        true => https.0,
        false => http.0 | https.0,
    }
}
