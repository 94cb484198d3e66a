//! Input records.

use std::cmp::Ordering;

use crate::kind::ConnectionKind;
use crate::layout::*;
use crate::policy::Policy;
use crate::seen::Event;

/// What kind of record.
#[derive(Debug, Clone, Copy, PartialEq, Eq)]
pub enum Kind {
    Load,
    /// A response that this kind of connection awaits.
    Response(ConnectionKind),
    Redirect,
}

/// A record read from bytes; its numbers are not yet checked. A field that
/// its map does not carry is 0.
#[derive(Debug, Clone, PartialEq, Eq)]
pub struct Record {
    pub kind: Kind,
    pub url: usize,
    pub connection: usize,
    /// Key and value, lowest key first.
    pub cookies: Vec<(usize, u32)>,
    pub script: usize,
    pub value: u32,
    pub target: usize,
}

/// The maps of input records.
pub const INPUT_MAPS: [u8; 9] = [
    MAP_LOAD,
    MAP_DOCUMENT,
    MAP_DOCUMENT_COOKIES,
    MAP_SCRIPT,
    MAP_SCRIPT_COOKIES,
    MAP_PICTURE,
    MAP_PICTURE_COOKIES,
    MAP_REDIRECT,
    MAP_REDIRECT_COOKIES,
];

/// The one map that a request can have and an input cannot.
const MAP_REQUEST_ONLY: u8 = MAP_DOCUMENT_REQUEST | BIT_COOKIES;

/// The record is empty or its map is no input map, whatever else might refuse
/// it.
pub fn check_map(bytes: &[u8]) -> Result<(), Event> {
    let &map = bytes.first().ok_or(Event::RecordEmpty)?;
    if INPUT_MAPS.contains(&map) {
        return Ok(());
    }
    Err(match map {
        _ if key_map(bytes) == Some(0) => Event::RecordMapNoKeys,
        MAP_REQUEST_ONLY => Event::RecordMapRequest,
        _ => Event::RecordMap,
    })
}

/// The cookie bit stands and the key map byte is there and zero. However long
/// the record is: its length is asked for later.
pub fn check_key_map(bytes: &[u8]) -> Result<(), Event> {
    if key_map(bytes) != Some(0) {
        return Ok(());
    }
    Err(match bytes.len().cmp(&length(bytes[0], 0)) {
        Ordering::Less => Event::RecordNoKeysCut,
        Ordering::Equal => Event::RecordNoKeys,
        Ordering::Greater => Event::RecordNoKeysTrailing,
    })
}

/// The length is not what the maps call for. Without its key map byte, a
/// record with cookies is cut, whatever that byte would call for.
pub fn check_length(bytes: &[u8]) -> Result<(), Event> {
    let cookies = has_cookies(bytes);
    let key_map = key_map(bytes);
    if cookies && key_map.is_none() {
        return Err(Event::RecordCutBeforeKeys);
    }
    match bytes.len().cmp(&length(bytes[0], key_map.unwrap_or(0))) {
        Ordering::Less if cookies => Err(Event::RecordCutAfterKeys),
        Ordering::Less => Err(Event::RecordCutPlain),
        Ordering::Greater => Err(Event::RecordTrailing),
        Ordering::Equal => Ok(()),
    }
}

/// Whether the cookie bit stands in the map of a record that is not empty.
fn has_cookies(bytes: &[u8]) -> bool {
    bytes[0] & BIT_COOKIES != 0
}

/// The key map byte, where the cookie bit stands and the byte is there.
fn key_map(bytes: &[u8]) -> Option<u8> {
    match has_cookies(bytes) {
        true => bytes.get(FRONT_BYTES).copied(),
        false => None,
    }
}

/// The length that the maps call for: one byte of map, then only the fields
/// whose bit stands. Cookies are a key map byte, then four bytes for each
/// standing bit. Bit 6 has no field.
fn length(map: u8, key_map: u8) -> usize {
    let cookies = 1 + 4 * key_map.count_ones() as usize;
    let fields = [1, 1, cookies, 1, 4, 1, 0];
    let standing = (0..fields.len()).filter(|bit| map >> bit & 1 == 1);
    1 + standing.map(|bit| fields[bit]).sum::<usize>()
}

/// Takes fields off the front of the bytes; those whose bit does not stand
/// in the map are not there.
struct Fields<'a> {
    map: u8,
    bytes: &'a [u8],
}

impl Fields<'_> {
    fn carries(&self, bit: u8) -> bool {
        self.map & bit != 0
    }

    fn byte(&mut self) -> u8 {
        let (&first, rest) = self.bytes.split_first().expect("the length was checked");
        self.bytes = rest;
        first
    }

    fn number(&mut self, bit: u8) -> usize {
        match self.carries(bit) {
            true => self.byte().into(),
            false => 0,
        }
    }

    /// Four bytes, most significant first.
    fn word(&mut self) -> u32 {
        u32::from_be_bytes([self.byte(), self.byte(), self.byte(), self.byte()])
    }

    fn value(&mut self, bit: u8) -> u32 {
        match self.carries(bit) {
            true => self.word(),
            false => 0,
        }
    }

    /// A key map byte, then one 4-byte value for each standing bit, lowest
    /// key first.
    fn cookies(&mut self, bit: u8) -> Vec<(usize, u32)> {
        let map = match self.carries(bit) {
            true => self.byte(),
            false => 0,
        };
        let keys = (0..KEYS).filter(|key| map >> key & 1 == 1);
        keys.map(|key| (key, self.word())).collect()
    }
}

/// Reads a record whose maps and length were checked: the fields whose bit
/// stands, lowest bit first.
pub fn read(bytes: &[u8]) -> Record {
    let (&map, bytes) = bytes.split_first().expect("the length was checked");
    let mut fields = Fields { map, bytes };
    let record = Record {
        kind: read_kind(map),
        url: fields.number(BIT_URL),
        connection: fields.number(BIT_CONNECTION),
        cookies: fields.cookies(BIT_COOKIES),
        script: fields.number(BIT_SCRIPT),
        value: fields.value(BIT_VALUE),
        target: fields.number(BIT_TARGET),
    };
    assert!(fields.bytes.is_empty(), "the length was checked");
    record
}

fn read_kind(map: u8) -> Kind {
    match ConnectionKind::of_response(map) {
        Some(kind) => Kind::Response(kind),
        None if map == MAP_LOAD => Kind::Load,
        None => Kind::Redirect,
    }
}

/// Its URL or target is above 63.
pub fn check_range(record: &Record) -> Result<(), Event> {
    if record.url >= URLS {
        return Err(Event::NumberUrlAbove);
    }
    if record.target >= URLS {
        return Err(Event::NumberTargetAbove);
    }
    Ok(())
}

/// The URL of a load and the target of a redirect are replaced by their https
/// partner. The URL of a response, and the one that a redirect leaves, are
/// not.
pub fn upgraded(record: &Record, policy: &Policy) -> Record {
    let mut record = record.clone();
    match record.kind {
        Kind::Load => record.url = policy.upgraded(record.url),
        Kind::Redirect => record.target = policy.upgraded(record.target),
        Kind::Response(_) => {}
    }
    record
}

/// Its URL or target is an empty row, its connection above 31, or its script
/// above 15.
pub fn check_numbers(record: &Record, policy: &Policy) -> Result<(), Event> {
    if policy.url(record.url).is_none() {
        return Err(Event::NumberUrlEmpty);
    }
    if record.connection >= CONNECTIONS {
        return Err(Event::NumberConnection);
    }
    if record.script >= SCRIPTS {
        return Err(Event::NumberScript);
    }
    match record.kind {
        Kind::Redirect if policy.url(record.target).is_none() => Err(Event::NumberTargetEmpty),
        _ => Ok(()),
    }
}
