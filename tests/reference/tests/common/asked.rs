//! A URL that a load or a redirect asks for, and the connection that it is asked for on: what is missing there.

#![allow(dead_code)] // no file of tests needs all of it

use crate::common::Session;
use crate::setup::{list, open, set, set_connection, set_row, ALL};

/// What is asked for is URL 11: by a load on connection 9, or by a redirect on connection 8, which awaits the page of URL 10.
pub const PAGE: u8 = 10;
pub const URL: u8 = 11;
pub const OWN: usize = 8;
pub const FREE: usize = 9;

pub const LOAD: [u8; 3] = [0x03, URL, FREE as u8];
pub const REDIRECT: [u8; 4] = [0x23, PAGE, OWN as u8, URL];

/// The URL's address word, readers and writers, and readers and writers of the connection that the load is on.
pub fn set_load(session: &mut Session, url: [u32; 3], readers: u32, writers: u32) {
    set_row(session, URL.into(), url);
    set_connection(session, FREE, readers, writers);
}

/// The same for a redirect. The connection awaits a page whose address is among its writers.
pub fn set_redirect(session: &mut Session, url: [u32; 3], readers: u32, writers: u32) {
    set_row(session, PAGE.into(), [writers.trailing_zeros(), ALL, ALL]);
    set_row(session, URL.into(), url);
    set_connection(session, OWN, readers, writers);
    open(session, OWN, 0x0100_0000 | u32::from(PAGE));
}

/// What is lacking in each condition of a redirect, the lowest first: the connection lacks the URL's event endpoint as reader, the URL lacks readers,
/// the connection lacks the URL's message endpoint as writer, the URL lacks writers. A load asks the second and the third.
pub type Lacking<'a> = [&'a [u32]; 4];

/// A load and a redirect in which just this is lacking.
pub fn set_lacking(session: &mut Session, word: u32, lacking: Lacking) {
    let there = lacking.map(|endpoints| ALL & !set(endpoints));
    let [readers, url_readers, writers, url_writers] = there;
    let url = [word, url_readers, url_writers];
    set_load(session, url, readers, writers);
    set_redirect(session, url, readers, writers);
}

/// URL 12, http at host 5, is named; URL 11, https there, is asked for in its place.
pub const NAMED: u8 = 12;

pub const LOAD_NAMED: [u8; 3] = [0x03, NAMED, FREE as u8];
pub const REDIRECT_NAMED: [u8; 4] = [0x23, PAGE, OWN as u8, NAMED];

/// Its address word, and the readers and writers that it lacks.
pub fn set_named(session: &mut Session, word: u32, lacking: [&[u32]; 2]) {
    let [readers, writers] = lacking.map(|endpoints| ALL & !set(endpoints));
    set_row(session, NAMED.into(), [word, readers, writers]);
    list(session, 1 << 5, &[(NAMED.into(), URL.into())]);
}
