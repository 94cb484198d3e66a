//! What documents 01 and 02 ask of readers and writers, condition by condition,
//! and in one place, so that a monitor which leaves one out can be made.

use crate::endpoint::EndpointSet;
use crate::policy::{ConnectionTag, CookieTag, Url};

/// The conditions: whether each holds or, where that is told, what is missing.
/// Of a script, its own connection is the one that the response came on.
pub trait Rules {
    /// A cookie is delivered: its readers are within the connection's readers.
    fn store_readers(&self, connection: &ConnectionTag, cookie: &CookieTag) -> bool {
        cookie.readers.within(connection.readers)
    }

    /// The connection's writers are within the cookie's writers.
    fn store_writers(&self, connection: &ConnectionTag, cookie: &CookieTag) -> bool {
        connection.writers.within(cookie.writers)
    }

    /// A script reads: the script readers are within the cookie's readers.
    fn read_readers(&self, own: &ConnectionTag, cookie: &CookieTag) -> bool {
        own.script_readers.within(cookie.readers)
    }

    /// The cookie's writers are within the connection's writers.
    fn read_writers(&self, own: &ConnectionTag, cookie: &CookieTag) -> bool {
        cookie.writers.within(own.writers)
    }

    /// A script writes: the cookie's readers are within the script readers.
    fn write_readers(&self, own: &ConnectionTag, cookie: &CookieTag) -> bool {
        cookie.readers.within(own.script_readers)
    }

    /// The connection's writers are within the cookie's writers.
    fn write_writers(&self, own: &ConnectionTag, cookie: &CookieTag) -> bool {
        own.writers.within(cookie.writers)
    }

    /// A script sends a request: the URL's event endpoint is in the script
    /// readers.
    fn send_event(&self, own: &ConnectionTag, url: &Url) -> bool {
        own.script_readers.holds(url.event_endpoint())
    }

    /// The other connection's readers are within the script readers.
    fn send_readers(&self, own: &ConnectionTag, other: &ConnectionTag) -> bool {
        other.readers.within(own.script_readers)
    }

    /// The own writers are within the other connection's writers.
    fn send_writers(&self, own: &ConnectionTag, other: &ConnectionTag) -> bool {
        own.writers.within(other.writers)
    }

    /// The URL admits the own writers.
    fn send_url_writers(&self, own: &ConnectionTag, url: &Url) -> bool {
        own.writers_admitted(url)
    }

    /// First half of "fits": the connection's readers are within the URL's.
    /// Asked of loads, of redirects, of a script's requests and of states.
    fn fit_readers(&self, connection: &ConnectionTag, url: &Url) -> EndpointSet {
        connection.readers_missing(url)
    }

    /// A redirect: the target's event endpoint is in the connection's readers.
    fn redirect_event(&self, connection: &ConnectionTag, target: &Url) -> EndpointSet {
        connection.event_missing(target)
    }

    /// The target admits the connection's writers.
    fn redirect_writers(&self, connection: &ConnectionTag, target: &Url) -> EndpointSet {
        connection.writers_missing(target)
    }

    /// A request carries a cookie: the URL's message endpoint is among the
    /// cookie's readers.
    fn carry(&self, cookie: &CookieTag, url: &Url) -> bool {
        cookie.readers.holds(url.message_endpoint())
    }
}

/// Every condition as the documents have it.
pub struct Documents;

impl Rules for Documents {}
