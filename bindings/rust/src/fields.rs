//! The bytes of records and requests: a map byte, and the fields that its bits say.

use crate::{Cookies, KEYS};

/// The map of a record that has a URL and a connection, and no other field.
pub(crate) const URL_AND_CONNECTION: u8 = 0x03;
pub(crate) const COOKIES: u8 = 0x04;
pub(crate) const SCRIPT: u8 = 0x08;
pub(crate) const VALUE: u8 = 0x10;
pub(crate) const TARGET: u8 = 0x20;
pub(crate) const PICTURE: u8 = 0x40;

/// Where the key map stands, if cookies follow: behind map, URL and connection.
const KEY_MAP_AT: usize = 3;

/// Whether cookies should follow, and the key map is there and says that none do.
pub(crate) fn is_key_map_empty(record: &[u8]) -> bool {
    let map = record.first().copied().unwrap_or(0);
    map & COOKIES != 0 && record.get(KEY_MAP_AT) == Some(&0)
}

/// Fields as they are taken from the front.
pub(crate) struct Fields<'a> {
    pub(crate) rest: &'a [u8],
}

impl Fields<'_> {
    pub(crate) fn byte(&mut self) -> Option<u8> {
        let (byte, rest) = self.rest.split_first()?;
        self.rest = rest;
        Some(*byte)
    }

    pub(crate) fn value(&mut self) -> Option<u32> {
        let (value, rest) = self.rest.split_first_chunk()?;
        self.rest = rest;
        Some(u32::from_be_bytes(*value))
    }

    /// Those that the map says follow.
    pub(crate) fn cookies(&mut self, map: u8) -> Option<Cookies> {
        if map & COOKIES == 0 {
            return Some(Cookies::NONE);
        }
        let key_map = self.byte()?;
        let mut cookies = Cookies::NONE;
        for key in (0..KEYS as u32).filter(|key| key_map >> key & 1 == 1) {
            cookies = cookies.with(key, self.value()?)?;
        }
        Some(cookies)
    }
}

/// Bytes as they are written, at most `ROOM` of them.
pub(crate) struct Writer<const ROOM: usize> {
    pub(crate) bytes: [u8; ROOM],
    pub(crate) length: usize,
}

impl<const ROOM: usize> Writer<ROOM> {
    /// The map, to which cookies are added where there are some, and the fields that every record and every request has.
    pub(crate) fn new(map: u8, url: u8, connection: u8, cookies: &Cookies) -> Writer<ROOM> {
        let mut writer = Writer {
            bytes: [0; ROOM],
            length: 0,
        };
        let with_cookies = if cookies.is_empty() { 0 } else { COOKIES };
        writer.write(&[map | with_cookies, url, connection]);
        if !cookies.is_empty() {
            writer.write(&[cookies.key_map()]);
        }
        for (_, value) in cookies.iter() {
            writer.write(&value.to_be_bytes());
        }
        writer
    }

    pub(crate) fn write(&mut self, bytes: &[u8]) {
        self.bytes[self.length..][..bytes.len()].copy_from_slice(bytes);
        self.length += bytes.len();
    }
}
