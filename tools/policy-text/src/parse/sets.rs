//! Sets of endpoints.

use zolherima::{Endpoint, Endpoints, Scheme};

use super::cursor::Parsed;
use super::declarations::scheme;
use super::reader::Reader;
use crate::kind::Kind;
use crate::lex::Token;

impl<'t> Reader<'t> {
    pub fn set(&mut self) -> Parsed<Endpoints> {
        if self.cursor.is_at_end() {
            return self.cursor.expected(&"a set");
        }
        if self.cursor.takes("nobody") {
            return Ok(Endpoints::NOBODY);
        }
        if !self.cursor.takes("everyone") {
            return self.items();
        }
        if self.cursor.is_at_end() {
            return Ok(Endpoints::EVERYONE);
        }
        if !self.cursor.takes("except") {
            let label = "`everyone` stands alone or before `except`";
            return self
                .cursor
                .expected_with(&"`except` or the end of the line", label, &[]);
        }
        Ok(Endpoints::EVERYONE.except(self.items()?))
    }

    fn items(&mut self) -> Parsed<Endpoints> {
        let mut items = self.item()?;
        while self.cursor.takes_token(Token::Comma) {
            items = items.and(self.item()?);
        }
        if self.cursor.is_at_end() {
            return Ok(items);
        }
        let label = "a comma goes before the next of the set";
        self.cursor
            .expected_with(&"`,` or the end of the line", label, &[])
    }

    fn item(&mut self) -> Parsed<Endpoints> {
        let scheme = scheme(&mut self.cursor);
        let what = "a host's name";
        if self.cursor.is_at("everyone") || self.cursor.is_at("nobody") {
            let label = "a host's name goes here";
            let note = "`everyone` and `nobody` stand alone";
            return self.cursor.expected_with(&what, label, &[note]);
        }
        let it = self.cursor.name(what)?;
        let words: &[&str] = match scheme {
            None => &["everyone", "nobody", "http", "https"],
            Some(_) => &[],
        };
        let host = self.find(Kind::Host, it, words);
        Ok(endpoints(scheme, host))
    }
}

/// The endpoints of a host: that by a scheme, or both.
fn endpoints(scheme: Option<Scheme>, host: u32) -> Endpoints {
    let http = Endpoint::http(host).filter(|_| scheme != Some(Scheme::Https));
    let https = Endpoint::https(host).filter(|_| scheme != Some(Scheme::Http));
    http.into_iter().chain(https).collect()
}
