//! Both steps of a script that send a request ask the same of URL and
//! connection, and open the connection alike: only the events differ.

use crate::entry::{self, EntryEvents};
use crate::seen::Event;
use crate::upgrade::{self, Upgrade};

/// The events of such a step.
pub struct RequestStep {
    /// Why the script ends at it.
    pub url_above: Event,
    pub url_empty: Event,
    pub connection: Event,
    pub event: Event,
    pub readers: Event,
    pub fit_readers: Event,
    pub fit_writers: Event,
    pub writers: Event,
    pub url_writers: Event,
    /// What the connection held, or which one it is.
    pub replaces: Event,
    pub replaces_picture: Event,
    pub same: Event,
    /// What the request carries.
    pub unreadable: Event,
    /// What came of a URL that was replaced.
    pub upgrade: Upgrade,
    /// What came of an entry.
    pub entry: EntryEvents,
}

/// Request a URL with a handler.
pub const SEND: RequestStep = RequestStep {
    url_above: Event::EndSendUrlAbove,
    url_empty: Event::EndSendUrlEmpty,
    connection: Event::EndSendConnection,
    event: Event::EndSendEvent,
    readers: Event::EndSendReaders,
    fit_readers: Event::EndSendFitReaders,
    fit_writers: Event::EndSendFitWriters,
    writers: Event::EndSendWriters,
    url_writers: Event::EndSendUrlWriters,
    replaces: Event::StepSendReplaces,
    replaces_picture: Event::StepSendReplacesPicture,
    same: Event::StepSendSame,
    unreadable: Event::CarriedUnreadable,
    upgrade: upgrade::SEND,
    entry: entry::SEND,
};

/// Request a picture.
pub const PICTURE: RequestStep = RequestStep {
    url_above: Event::EndPictureUrlAbove,
    url_empty: Event::EndPictureUrlEmpty,
    connection: Event::EndPictureConnection,
    event: Event::EndPictureEvent,
    readers: Event::EndPictureReaders,
    fit_readers: Event::EndPictureFitReaders,
    fit_writers: Event::EndPictureFitWriters,
    writers: Event::EndPictureWriters,
    url_writers: Event::EndPictureUrlWriters,
    replaces: Event::StepPictureReplaces,
    replaces_picture: Event::StepPictureReplacesPicture,
    same: Event::StepPictureSame,
    unreadable: Event::CarriedUnreadablePicture,
    upgrade: upgrade::PICTURE,
    entry: entry::PICTURE,
};
