//! Records: what is fed.

use core::ops::Deref;

use crate::fields::{Writer, PICTURE, SCRIPT, TARGET, URL_AND_CONNECTION, VALUE};
use crate::{Cookies, LONGEST_RECORD};

pub(crate) const LOAD: u8 = URL_AND_CONNECTION;
pub(crate) const DOCUMENT_RESPONSE: u8 = URL_AND_CONNECTION | SCRIPT;
pub(crate) const SCRIPT_RESPONSE: u8 = URL_AND_CONNECTION | VALUE;
pub(crate) const REDIRECT: u8 = URL_AND_CONNECTION | TARGET;
pub(crate) const PICTURE_RESPONSE: u8 = URL_AND_CONNECTION | PICTURE;

/// A record that is not malformed: the bytes that [`feed`](crate::feed) takes.
///
/// ```
/// use zolherima::{Cookies, Record};
///
/// assert_eq!(*Record::load(0, 2), [0x03, 0, 2]);
///
/// // It brings 7 for key 0 and names script 1.
/// let cookies = Cookies::NONE.with(0, 7).unwrap();
/// let response = Record::document_response(0, 2, &cookies, 1);
/// assert_eq!(*response, [0x0f, 0, 2, 0b1, 0, 0, 0, 7, 1]);
/// ```
#[derive(Clone, Copy, Debug, PartialEq, Eq, Hash)]
pub struct Record {
    /// 0 behind the record.
    bytes: [u8; LONGEST_RECORD],
    length: u8,
}

impl Record {
    /// A page asks for a URL on a connection.
    pub fn load(url: u8, connection: u8) -> Record {
        Record::new(LOAD, url, connection, &Cookies::NONE, &[])
    }

    /// The response to a document request: it brings cookies, and the script runs.
    pub fn document_response(url: u8, connection: u8, cookies: &Cookies, script: u8) -> Record {
        Record::new(DOCUMENT_RESPONSE, url, connection, cookies, &[script])
    }

    /// The response to a script's request: it brings cookies, and the handler runs with this value in register 0.
    pub fn script_response(url: u8, connection: u8, cookies: &Cookies, value: u32) -> Record {
        let value = value.to_be_bytes();
        Record::new(SCRIPT_RESPONSE, url, connection, cookies, &value)
    }

    /// The response to a picture request: it brings cookies, and no script runs.
    pub fn picture_response(url: u8, connection: u8, cookies: &Cookies) -> Record {
        Record::new(PICTURE_RESPONSE, url, connection, cookies, &[])
    }

    /// A redirect from the URL to a target: it brings cookies of the URL's host.
    pub fn redirect(url: u8, connection: u8, cookies: &Cookies, target: u8) -> Record {
        Record::new(REDIRECT, url, connection, cookies, &[target])
    }

    fn new(map: u8, url: u8, connection: u8, cookies: &Cookies, last: &[u8]) -> Record {
        let mut writer = Writer::new(map, url, connection, cookies);
        writer.write(last);
        Record {
            bytes: writer.bytes,
            length: writer.length as u8,
        }
    }
}

impl Deref for Record {
    type Target = [u8];

    fn deref(&self) -> &[u8] {
        &self.bytes[..usize::from(self.length)]
    }
}
