//! The two rules: what each strikes from a list of records for a set of endpoints, and what it then compares of a run.

use cases::labels::{Connection, Cookie, Url};

use crate::events::Event;

/// Two sets meet where they share an endpoint.
fn meets(a: u32, b: u32) -> bool {
    a & b != 0
}

fn misses(a: u32, b: u32) -> bool {
    !meets(a, b)
}

/// What a rule says of labels. The rest is said of both alike: malformed records and those that name what there is not are struck, and where 2
/// refuses the policy every record is struck and every request compared.
pub trait Rule {
    fn name(&self) -> &'static str;

    /// The events that it has no place for.
    fn lacks(&self) -> &'static [Event];

    /// Which of readers and writers it asks for.
    fn label(&self, readers: u32, writers: u32) -> u32;

    /// Whether loads of this URL are struck.
    fn strikes_load(&self, set: u32, url: Url) -> bool;

    /// Whether responses and redirects on this connection are struck.
    fn strikes_on(&self, set: u32, connection: Connection) -> bool;

    /// Whether this cookie is struck from other responses and redirects.
    fn strikes_cookie(&self, set: u32, cookie: Cookie) -> bool;

    /// Whether requests to this URL are compared.
    fn compares_request(&self, set: u32, url: Url) -> bool;

    /// Whether they are not, for nothing but that the URL is an entry.
    fn excuses(&self, set: u32, url: Url) -> bool;

    /// Whether this cookie of such a request is compared.
    fn compares_carried(&self, set: u32, url: Url, cookie: Cookie) -> bool;

    /// Whether states are compared at all.
    fn compares_states(&self) -> bool;

    /// Whether this cookie of the jar is compared.
    fn compares_stored(&self, set: u32, cookie: Cookie) -> bool;

    /// Whether the word of this connection is compared.
    fn compares_pending(&self, set: u32, connection: Connection) -> bool;
}

/// What a set of endpoints does not learn.
pub struct Secrecy;

impl Rule for Secrecy {
    fn name(&self) -> &'static str {
        "secrecy"
    }

    fn lacks(&self) -> &'static [Event] {
        &[Event::SendsEntry, Event::RedirectsToEntry]
    }

    fn label(&self, readers: u32, _: u32) -> u32 {
        readers
    }

    fn strikes_load(&self, set: u32, url: Url) -> bool {
        misses(url.readers, set)
    }

    fn strikes_on(&self, set: u32, connection: Connection) -> bool {
        misses(connection.readers, set)
    }

    fn strikes_cookie(&self, set: u32, cookie: Cookie) -> bool {
        misses(cookie.readers, set)
    }

    /// That there is a request is seen by who has the event endpoint.
    fn compares_request(&self, set: u32, url: Url) -> bool {
        meets(url.event(), set)
    }

    fn excuses(&self, _: u32, _: Url) -> bool {
        false
    }

    /// What it carries is seen by who has the message endpoint too.
    fn compares_carried(&self, set: u32, url: Url, _: Cookie) -> bool {
        meets(url.message(), set)
    }

    fn compares_states(&self) -> bool {
        true
    }

    fn compares_stored(&self, set: u32, cookie: Cookie) -> bool {
        meets(cookie.readers, set)
    }

    fn compares_pending(&self, set: u32, connection: Connection) -> bool {
        meets(connection.readers, set)
    }
}

/// What a forger who has a set of endpoints does not cause.
pub struct Forgery;

impl Rule for Forgery {
    fn name(&self) -> &'static str {
        "forgery"
    }

    fn lacks(&self) -> &'static [Event] {
        &[
            Event::Load,
            Event::StoredCompared,
            Event::PendingDocument,
            Event::PendingScript,
            Event::PendingPicture,
        ]
    }

    fn label(&self, _: u32, writers: u32) -> u32 {
        writers
    }

    /// Loads are the customer's own.
    fn strikes_load(&self, _: u32, _: Url) -> bool {
        false
    }

    fn strikes_on(&self, set: u32, connection: Connection) -> bool {
        meets(connection.writers, set)
    }

    fn strikes_cookie(&self, set: u32, cookie: Cookie) -> bool {
        meets(cookie.writers, set)
    }

    fn compares_request(&self, set: u32, url: Url) -> bool {
        !url.is_entry() && misses(url.writers, set)
    }

    fn excuses(&self, set: u32, url: Url) -> bool {
        url.is_entry() && misses(url.writers, set)
    }

    fn compares_carried(&self, set: u32, _: Url, cookie: Cookie) -> bool {
        misses(cookie.writers, set)
    }

    fn compares_states(&self) -> bool {
        false
    }

    fn compares_stored(&self, _: u32, _: Cookie) -> bool {
        false
    }

    fn compares_pending(&self, _: u32, _: Connection) -> bool {
        false
    }
}
