//! What came of asking for an entry, or for a URL that is none though the row
//! that was named, or the URL that it is asked from, is one. For the events
//! alone: nothing is decided here.

use crate::endpoint::EndpointSet;
use crate::policy::Url;
use crate::seen::{Event, Seen};

/// What a redirect or a script asks for.
pub struct Asked {
    pub url: Url,
    /// The row that was named, where the URL is its partner; else the URL.
    pub named: Url,
    /// The URL that the redirect leaves, or the page of the script.
    pub from: Url,
    /// The writers of the connection of redirect or script.
    pub writers: EndpointSet,
}

/// The events of one of the places where they ask.
pub struct EntryEvents {
    /// The request goes to an entry that has the writers all the same.
    sent: Event,
    /// It goes to one that does not have them.
    excused: Event,
    /// The same, and the row that was named is no entry.
    excused_partner: Event,
    /// Labels forbid it by this clause, though it is an entry.
    forbidden: &'static [(Event, Event)],
    /// The clause that an entry is excused from.
    writers: Event,
    /// By this clause they forbid a URL that is no entry, and the row that was
    /// named is one.
    named_entry: Event,
    /// The same, and the URL that it comes from is an entry.
    from_entry: Event,
}

impl EntryEvents {
    /// Notes what labels say of what is asked for.
    pub fn note(&self, asked: &Asked, judged: Result<(), Event>, seen: &mut Seen) {
        match judged {
            Ok(()) if asked.url.is_entry => self.note_sent(asked, seen),
            Ok(()) => {}
            Err(clause) if asked.url.is_entry => seen.note(self.forbidden_by(clause)),
            Err(clause) if clause == self.writers => self.note_not_excused(asked, seen),
            Err(_) => {}
        }
    }

    fn note_sent(&self, asked: &Asked, seen: &mut Seen) {
        if asked.writers.within(asked.url.writers) {
            seen.note(self.sent);
            return;
        }
        seen.note(self.excused);
        if !asked.named.is_entry {
            seen.note(self.excused_partner);
        }
    }

    fn note_not_excused(&self, asked: &Asked, seen: &mut Seen) {
        if asked.named.is_entry {
            seen.note(self.named_entry);
        }
        if asked.from.is_entry {
            seen.note(self.from_entry);
        }
    }

    fn forbidden_by(&self, clause: Event) -> Event {
        let found = self.forbidden.iter().find(|(of, _)| *of == clause);
        let (_, event) = found.expect("an entry is excused from one clause alone");
        *event
    }
}

/// Notes where a redirect's message endpoint forbids an entry that does not have
/// the writers either, from which it is excused.
pub fn note_message(asked: &Asked, judged: Result<(), Event>, seen: &mut Seen) {
    let is_message = judged == Err(Event::WritersRedirectMessage);
    if is_message && !asked.writers.within(asked.url.writers) {
        note(&asked.url, Event::RedirectEntryMessageOutside, seen);
    }
}

/// Notes what labels say of a load of this URL, which is asked for in place of
/// the row that was named, on a connection that has these writers.
pub fn note_load(
    [url, named]: [&Url; 2],
    writers: EndpointSet,
    judged: Result<(), Event>,
    seen: &mut Seen,
) {
    match judged {
        Ok(()) => note_loaded([url, named], writers, seen),
        Err(Event::ReadersLoad) => note(url, Event::LoadEntryReaders, seen),
        Err(_) => note(url, Event::LoadEntryMessage, seen),
    }
}

fn note_loaded([url, named]: [&Url; 2], writers: EndpointSet, seen: &mut Seen) {
    note(url, Event::LoadEntry, seen);
    match (url.is_entry, named.is_entry) {
        (true, false) => seen.note(Event::LoadPartnerEntry),
        (false, true) => seen.note(Event::LoadNamedEntry),
        _ => {}
    }
    if !writers.within(url.writers) {
        seen.note(match url.is_entry {
            true => Event::LoadOutsideEntry,
            false => Event::LoadOutside,
        });
    }
}

/// Notes what happens with a URL, where that is an entry.
pub fn note(url: &Url, event: Event, seen: &mut Seen) {
    if url.is_entry {
        seen.note(event);
    }
}

/// The target of a redirect.
pub const REDIRECT: EntryEvents = EntryEvents {
    sent: Event::RedirectEntry,
    excused: Event::RedirectEntryExcused,
    excused_partner: Event::RedirectPartnerEntry,
    forbidden: &[
        (Event::ReadersRedirectEvent, Event::RedirectEntryEvent),
        (Event::ReadersRedirect, Event::RedirectEntryReaders),
        (Event::WritersRedirectMessage, Event::RedirectEntryMessage),
    ],
    writers: Event::WritersRedirect,
    named_entry: Event::RedirectNamedEntry,
    from_entry: Event::RedirectFromEntry,
};

/// The URL of a script's send.
pub const SEND: EntryEvents = EntryEvents {
    sent: Event::SendEntry,
    excused: Event::SendEntryExcused,
    excused_partner: Event::SendPartnerEntry,
    forbidden: &[
        (Event::EndSendEvent, Event::SendEntryEvent),
        (Event::EndSendReaders, Event::SendEntryReaders),
        (Event::EndSendFitReaders, Event::SendEntryFitReaders),
        (Event::EndSendFitWriters, Event::SendEntryFitWriters),
        (Event::EndSendWriters, Event::SendEntryWriters),
    ],
    writers: Event::EndSendUrlWriters,
    named_entry: Event::SendNamedEntry,
    from_entry: Event::SendFromEntry,
};

/// The URL of a script's picture.
pub const PICTURE: EntryEvents = EntryEvents {
    sent: Event::PictureEntry,
    excused: Event::PictureEntryExcused,
    excused_partner: Event::PicturePartnerEntry,
    forbidden: &[
        (Event::EndPictureEvent, Event::PictureEntryEvent),
        (Event::EndPictureReaders, Event::PictureEntryReaders),
        (Event::EndPictureFitReaders, Event::PictureEntryFitReaders),
        (Event::EndPictureFitWriters, Event::PictureEntryFitWriters),
        (Event::EndPictureWriters, Event::PictureEntryWriters),
    ],
    writers: Event::EndPictureUrlWriters,
    named_entry: Event::PictureNamedEntry,
    from_entry: Event::PictureFromEntry,
};
