//! Request records, read back from bytes.

use crate::kind::ConnectionKind;
use crate::layout::*;
use crate::record::INPUT_MAPS;
use crate::tally_seen::TallyEvent;

/// A request read from bytes; its numbers are not yet checked. A field that
/// its map does not carry is 0.
#[derive(Debug, Clone, Copy, PartialEq, Eq)]
pub struct Request {
    /// The kind of connection that it opens.
    pub kind: ConnectionKind,
    pub url: usize,
    pub connection: usize,
    /// The key map.
    pub keys: u8,
    pub handler: usize,
}

impl Request {
    /// How many cookies it carries: one for each standing bit of its key map.
    pub fn cookies(&self) -> u32 {
        self.keys.count_ones()
    }
}

/// Takes a list apart into requests, one right after another.
pub fn read_requests(mut list: &[u8]) -> Result<Vec<Request>, TallyEvent> {
    let mut requests = Vec::new();
    while let Some((&map, fields)) = list.split_first() {
        let (request, rest) = read_request(map, fields)?;
        requests.push(request);
        list = rest;
    }
    Ok(requests)
}

/// Reads the request of this map, and gives what follows its fields.
fn read_request(map: u8, fields: &[u8]) -> Result<(Request, &[u8]), TallyEvent> {
    let kind = read_kind(map)?;
    let mut fields = Fields(fields);
    let url = fields.byte(TallyEvent::CutUrl)?;
    let connection = fields.byte(TallyEvent::CutConnection)?;
    let keys = match map & BIT_COOKIES {
        0 => 0,
        _ => fields.cookies()?,
    };
    let handler = match map & BIT_SCRIPT {
        0 => 0,
        _ => fields.byte(TallyEvent::CutHandler)?,
    };
    let request = Request {
        kind,
        url: url.into(),
        connection: connection.into(),
        keys,
        handler: handler.into(),
    };
    Ok((request, fields.0))
}

/// The kind whose request has this map, with or without cookies.
fn read_kind(map: u8) -> Result<ConnectionKind, TallyEvent> {
    let why = match INPUT_MAPS.contains(&map) {
        true => TallyEvent::MapInput,
        false => TallyEvent::MapUnknown,
    };
    ConnectionKind::of_request(map).ok_or(why)
}

/// Takes fields off the front of the bytes; the bytes may end before one.
struct Fields<'a>(&'a [u8]);

impl<'a> Fields<'a> {
    fn take(&mut self, length: usize, cut: TallyEvent) -> Result<&'a [u8], TallyEvent> {
        let (field, rest) = self.0.split_at_checked(length).ok_or(cut)?;
        self.0 = rest;
        Ok(field)
    }

    fn byte(&mut self, cut: TallyEvent) -> Result<u8, TallyEvent> {
        Ok(self.take(1, cut)?[0])
    }

    /// A key map byte, not zero, then one 4-byte value for each standing
    /// bit; gives the key map.
    fn cookies(&mut self) -> Result<u8, TallyEvent> {
        let keys = self.byte(TallyEvent::CutKeys)?;
        if keys == 0 {
            return Err(TallyEvent::NoKeys);
        }
        self.take(4 * keys.count_ones() as usize, TallyEvent::CutValues)?;
        Ok(keys)
    }
}
