//! The first lines of declarations.

use zolherima::Scheme;

use super::cursor::{Cursor, Parsed};
use crate::kind::Kind;
use crate::numbering::Mention;
use crate::span::{Clause, Span};

/// What the first line of a declaration says.
pub(crate) struct Header<'t> {
    pub kind: Kind,
    /// The word that begins it.
    pub word: Span,
    pub name: Option<Mention<'t>>,
    pub number: Option<Clause<u32>>,
    /// Of a cookie or a URL.
    pub host: Option<Mention<'t>>,
    /// Of a URL.
    pub scheme: Scheme,
    pub is_entry: bool,
    /// Of a host.
    pub always_https: bool,
    /// Of a script.
    pub page: Option<Mention<'t>>,
    /// Whether the line was read to its end. Else what is said above may be less than what was meant.
    pub is_whole: bool,
}

impl<'t> Header<'t> {
    /// What the name stands for in messages, or the first word where there is no name.
    pub fn span(&self) -> Span {
        self.name.map_or(self.word, |name| name.span)
    }
}

/// Reads the first line of a declaration, at its first word.
pub(crate) fn header<'t>(cursor: &mut Cursor<'t>, kind: Kind) -> Header<'t> {
    cursor.set_form(kind.form());
    let mut header = Header {
        kind,
        word: cursor.take().span,
        name: None,
        number: None,
        host: None,
        scheme: Scheme::Http,
        is_entry: false,
        always_https: false,
        page: None,
        is_whole: false,
    };
    header.is_whole = rest(cursor, &mut header).is_ok();
    header
}

fn rest<'t>(cursor: &mut Cursor<'t>, header: &mut Header<'t>) -> Parsed<()> {
    let kind = header.kind;
    header.name = Some(cursor.new_name(name_of(kind))?);
    match kind {
        Kind::Host => always_https(cursor, header)?,
        Kind::Cookie => {
            cursor.word("of")?;
            header.host = Some(cursor.name("a host's name")?);
        }
        Kind::Url => address(cursor, header)?,
        Kind::Connection => {}
        Kind::Script => page(cursor, header)?,
    }
    if cursor.takes("number") {
        header.number = Some(cursor.number(kind.most() as u32 - 1)?);
    }
    cursor.line_end()
}

pub(crate) const fn name_of(kind: Kind) -> &'static str {
    match kind {
        Kind::Host => "a host's name",
        Kind::Cookie => "a cookie's name",
        Kind::Url => "a URL's name",
        Kind::Connection => "a connection's name",
        Kind::Script => "a script's name",
    }
}

fn always_https(cursor: &mut Cursor<'_>, header: &mut Header<'_>) -> Parsed<()> {
    header.always_https = cursor.takes("always");
    if header.always_https {
        cursor.word("https")?;
    }
    Ok(())
}

fn address<'t>(cursor: &mut Cursor<'t>, header: &mut Header<'t>) -> Parsed<()> {
    cursor.word("at")?;
    header.scheme = match scheme(cursor) {
        Some(scheme) => scheme,
        None => return cursor.expected(&"`http` or `https`"),
    };
    header.host = Some(cursor.name("a host's name")?);
    header.is_entry = cursor.takes("entry");
    Ok(())
}

/// Takes `http` or `https` if it is the next word.
pub(crate) fn scheme(cursor: &mut Cursor<'_>) -> Option<Scheme> {
    if cursor.takes("http") {
        return Some(Scheme::Http);
    }
    cursor.takes("https").then_some(Scheme::Https)
}

fn page<'t>(cursor: &mut Cursor<'t>, header: &mut Header<'t>) -> Parsed<()> {
    if cursor.takes("for") {
        header.page = Some(cursor.name("a URL's name")?);
    }
    Ok(())
}
