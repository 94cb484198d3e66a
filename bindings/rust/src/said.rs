//! What records say.

use crate::fields::{is_key_map_empty, Fields, COOKIES};
use crate::record::{DOCUMENT_RESPONSE, LOAD, PICTURE_RESPONSE, REDIRECT, SCRIPT_RESPONSE};
use crate::{Cookies, Record, Refusal};

/// What a record is, with the field that its kind alone has.
#[derive(Clone, Copy, Debug, PartialEq, Eq, Hash)]
pub enum RecordKind {
    /// A page asks for a URL.
    Load,
    /// The response to a document request.
    DocumentResponse {
        /// The script that runs.
        script: u8,
    },
    /// The response to a script's request.
    ScriptResponse {
        /// What register 0 is when the handler runs.
        value: u32,
    },
    /// The response to a picture request.
    PictureResponse,
    /// A redirect.
    Redirect {
        /// The URL that it leads to.
        target: u8,
    },
}

/// What a record says: the inverse of the constructors of [`Record`].
///
/// ```
/// use zolherima::{Cookies, Record, RecordKind, Refusal, Said};
///
/// let said = Said::of(&[0x23, 5, 0, 6])?;
/// assert_eq!((said.kind, said.url, said.connection), (RecordKind::Redirect { target: 6 }, 5, 0));
/// assert_eq!(said.record(), Record::redirect(5, 0, &Cookies::NONE, 6));
///
/// assert_eq!(Said::of(&[0x23, 5, 0]), Err(Refusal::CutOrTooLong));
/// # Ok::<(), Refusal>(())
/// ```
#[derive(Clone, Copy, Debug, PartialEq, Eq, Hash)]
pub struct Said {
    /// What the record is.
    pub kind: RecordKind,
    /// The URL that it names.
    pub url: u8,
    /// The connection that it names.
    pub connection: u8,
    /// The cookies that it brings; a load brings none.
    pub cookies: Cookies,
}

impl Said {
    /// What any bytes say as a record; where they are malformed, the refusal that [`feed`](crate::feed) gives for that.
    pub fn of(bytes: &[u8]) -> Result<Said, Refusal> {
        let (&map, rest) = bytes.split_first().ok_or(Refusal::KindUnknown)?;
        // a load with cookies is not fed
        if !is_kind(map & !COOKIES) || map == LOAD | COOKIES {
            return Err(Refusal::KindUnknown);
        }
        if is_key_map_empty(bytes) {
            return Err(Refusal::KeyMapEmpty);
        }
        said(map, Fields { rest }).ok_or(Refusal::CutOrTooLong)
    }

    /// The record that says this. The cookies of a load are left out: its record has no place for them.
    pub fn record(&self) -> Record {
        let (url, connection, cookies) = (self.url, self.connection, &self.cookies);
        match self.kind {
            RecordKind::Load => Record::load(url, connection),
            RecordKind::DocumentResponse { script } => {
                Record::document_response(url, connection, cookies, script)
            }
            RecordKind::ScriptResponse { value } => {
                Record::script_response(url, connection, cookies, value)
            }
            RecordKind::PictureResponse => Record::picture_response(url, connection, cookies),
            RecordKind::Redirect { target } => Record::redirect(url, connection, cookies, target),
        }
    }
}

fn is_kind(map: u8) -> bool {
    [
        LOAD,
        DOCUMENT_RESPONSE,
        SCRIPT_RESPONSE,
        REDIRECT,
        PICTURE_RESPONSE,
    ]
    .contains(&map)
}

/// None where the fields are not just those that the map calls for.
fn said(map: u8, mut fields: Fields<'_>) -> Option<Said> {
    let url = fields.byte()?;
    let connection = fields.byte()?;
    let cookies = fields.cookies(map)?;
    let kind = kind(map & !COOKIES, &mut fields)?;
    fields.rest.is_empty().then_some(Said {
        kind,
        url,
        connection,
        cookies,
    })
}

fn kind(map: u8, fields: &mut Fields<'_>) -> Option<RecordKind> {
    Some(match map {
        LOAD => RecordKind::Load,
        DOCUMENT_RESPONSE => RecordKind::DocumentResponse {
            script: fields.byte()?,
        },
        SCRIPT_RESPONSE => RecordKind::ScriptResponse {
            value: fields.value()?,
        },
        REDIRECT => RecordKind::Redirect {
            target: fields.byte()?,
        },
        PICTURE_RESPONSE => RecordKind::PictureResponse,
        _ => return None,
    })
}
