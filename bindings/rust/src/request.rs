//! Requests: what is sent.

use core::fmt;
use core::iter::FusedIterator;

use crate::fields::{
    is_key_map_empty, Fields, Writer, COOKIES, PICTURE, SCRIPT, URL_AND_CONNECTION,
};
use crate::{Cookies, CONNECTIONS, LONGEST_REQUEST, SCRIPTS, URLS};

const DOCUMENT_REQUEST: u8 = URL_AND_CONNECTION;
const SCRIPT_REQUEST: u8 = URL_AND_CONNECTION | SCRIPT;
const PICTURE_REQUEST: u8 = URL_AND_CONNECTION | PICTURE;

/// What is requested.
#[derive(Clone, Copy, Debug, PartialEq, Eq, Hash)]
pub enum RequestKind {
    /// A document.
    Document,
    /// A value, by a script.
    Script {
        /// The script that runs when the response comes.
        handler: u8,
    },
    /// A picture, by a script.
    Picture,
}

/// A request that goes out.
#[derive(Clone, Copy, Debug, PartialEq, Eq, Hash)]
pub struct Request {
    /// What is requested.
    pub kind: RequestKind,
    /// The URL to which it goes.
    pub url: u8,
    /// The connection on which it goes.
    pub connection: u8,
    /// The cookies that it carries.
    pub cookies: Cookies,
}

impl Request {
    /// Its bytes, as [`feed`](crate::feed) writes them, and how many they are.
    ///
    /// ```
    /// use zolherima::{Cookies, Request, RequestKind};
    ///
    /// let request = Request { kind: RequestKind::Picture, url: 1, connection: 2, cookies: Cookies::NONE };
    /// let (bytes, length) = request.write();
    /// assert_eq!(bytes[..length], [0x43, 1, 2]);
    /// ```
    pub fn write(&self) -> ([u8; LONGEST_REQUEST], usize) {
        let map = match self.kind {
            RequestKind::Document => DOCUMENT_REQUEST,
            RequestKind::Script { .. } => SCRIPT_REQUEST,
            RequestKind::Picture => PICTURE_REQUEST,
        };
        let mut writer = Writer::new(map, self.url, self.connection, &self.cookies);
        if let RequestKind::Script { handler } = self.kind {
            writer.write(&[handler]);
        }
        (writer.bytes, writer.length)
    }
}

/// Bytes are no requests from here on.
#[derive(Clone, Copy, Debug, PartialEq, Eq, Hash)]
pub struct RequestBad {
    /// Where the request begins that is none, in bytes from the start.
    pub at: usize,
    /// What is wrong with it.
    pub why: RequestFault,
}

/// Why bytes are no request: the first of these that applies.
#[derive(Clone, Copy, Debug, PartialEq, Eq, Hash)]
pub enum RequestFault {
    /// The map byte is no request's.
    KindUnknown,
    /// The map byte says that cookies follow, and the key map is 0.
    KeyMapEmpty,
    /// The bytes end within it.
    Cut,
    /// It has a URL above 63, a connection above 31 or a handler above 15.
    NumberAbove,
}

/// The requests of bytes, one right after another: for instance what [`feed`](crate::feed) wrote. After the first that is none, which is an error,
/// nothing more comes.
///
/// ```
/// use zolherima::{requests, RequestBad, RequestFault, RequestKind};
///
/// // A document request to URL 1 on connection 2, and a script's to URL 5 on connection 0 with handler 9 and a cookie for key 2.
/// let bytes = [0x03, 1, 2, 0x0f, 5, 0, 0b100, 0, 0, 0, 7, 9];
/// let both = requests(&bytes).collect::<Result<Vec<_>, _>>()?;
/// assert_eq!((both[0].kind, both[0].url), (RequestKind::Document, 1));
/// assert_eq!((both[1].kind, both[1].url), (RequestKind::Script { handler: 9 }, 5));
/// assert_eq!(both[1].cookies.get(2), Some(7));
///
/// let cut = requests(&bytes[..11]).last();
/// assert_eq!(cut, Some(Err(RequestBad { at: 3, why: RequestFault::Cut })));
/// # Ok::<(), RequestBad>(())
/// ```
pub fn requests(bytes: &[u8]) -> Requests<'_> {
    Requests { bytes, at: 0 }
}

/// What [`requests`] gives.
#[derive(Clone, Debug, PartialEq, Eq)]
pub struct Requests<'a> {
    bytes: &'a [u8],
    at: usize,
}

impl Iterator for Requests<'_> {
    type Item = Result<Request, RequestBad>;

    fn next(&mut self) -> Option<Result<Request, RequestBad>> {
        let at = self.at;
        let left = self.bytes.get(at..).filter(|left| !left.is_empty())?;
        Some(match first(left) {
            Ok((request, rest)) => {
                self.at = self.bytes.len() - rest.len();
                Ok(request)
            }
            Err(why) => {
                self.at = self.bytes.len();
                Err(RequestBad { at, why })
            }
        })
    }
}

impl FusedIterator for Requests<'_> {}

/// The first request of bytes, and what follows it.
fn first(bytes: &[u8]) -> Result<(Request, &[u8]), RequestFault> {
    let (&map, rest) = bytes.split_first().ok_or(RequestFault::Cut)?;
    if ![DOCUMENT_REQUEST, SCRIPT_REQUEST, PICTURE_REQUEST].contains(&(map & !COOKIES)) {
        return Err(RequestFault::KindUnknown);
    }
    if is_key_map_empty(bytes) {
        return Err(RequestFault::KeyMapEmpty);
    }
    let mut fields = Fields { rest };
    let request = request(map, &mut fields).ok_or(RequestFault::Cut)?;
    if !is_in_range(&request) {
        return Err(RequestFault::NumberAbove);
    }
    Ok((request, fields.rest))
}

/// None where the fields end before it does.
fn request(map: u8, fields: &mut Fields<'_>) -> Option<Request> {
    Some(Request {
        url: fields.byte()?,
        connection: fields.byte()?,
        cookies: fields.cookies(map)?,
        kind: match map & !COOKIES {
            SCRIPT_REQUEST => RequestKind::Script {
                handler: fields.byte()?,
            },
            PICTURE_REQUEST => RequestKind::Picture,
            _ => RequestKind::Document,
        },
    })
}

fn is_in_range(request: &Request) -> bool {
    let handler = match request.kind {
        RequestKind::Script { handler } => handler,
        _ => 0,
    };
    usize::from(request.url) < URLS
        && usize::from(request.connection) < CONNECTIONS
        && usize::from(handler) < SCRIPTS
}

impl fmt::Display for RequestBad {
    fn fmt(&self, to: &mut fmt::Formatter<'_>) -> fmt::Result {
        write!(to, "byte {}: {}", self.at, self.why)
    }
}

impl core::error::Error for RequestBad {}

impl fmt::Display for RequestFault {
    fn fmt(&self, to: &mut fmt::Formatter<'_>) -> fmt::Result {
        to.write_str(match self {
            RequestFault::KindUnknown => "the request is of an unknown kind",
            RequestFault::KeyMapEmpty => "the request's key map is empty",
            RequestFault::Cut => "the request is cut",
            RequestFault::NumberAbove => "the request has a number that is out of range",
        })
    }
}
