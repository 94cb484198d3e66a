//! What came of a URL that was replaced by its https partner, beside what
//! would have come of the row itself. For the events alone: nothing is decided
//! here.

use crate::layout::KEYS;
use crate::policy::Policy;
use crate::seen::{Event, Seen};
use crate::state::State;

/// The events of one of the places where a URL is replaced.
pub struct Upgrade {
    /// The request goes to the partner.
    sent: Event,
    /// It does so though labels would have forbidden the row itself.
    sent_against_row: Event,
    /// Labels forbid the partner by this clause, and would have allowed the
    /// row itself.
    forbidden: &'static [(Event, Event)],
    /// The partner gets a cookie that the row itself would not have got.
    carries: Event,
    /// The other way round.
    keeps_back: Event,
}

impl Upgrade {
    /// Notes what labels say of the partner, beside what they would have said
    /// of the row itself.
    pub fn note(&self, partner: Result<(), Event>, row: Result<(), Event>, seen: &mut Seen) {
        match (partner, row) {
            (Ok(()), Ok(())) => seen.note(self.sent),
            (Ok(()), Err(_)) => {
                seen.note(self.sent);
                seen.note(self.sent_against_row);
            }
            (Err(clause), Ok(())) => seen.note(self.forbidden_by(clause)),
            (Err(_), Err(_)) => {}
        }
    }

    fn forbidden_by(&self, clause: Event) -> Event {
        let found = self.forbidden.iter().find(|(of, _)| *of == clause);
        let (_, event) = found.expect("row and partner differ in readers, writers and endpoint");
        *event
    }

    /// Notes each present cookie that only one of the two gets.
    pub fn note_cookies(
        &self,
        policy: &Policy,
        state: &State,
        [partner, row]: [usize; 2],
        seen: &mut Seen,
    ) {
        let [partner, row] = [partner, row].map(|number| policy.known_url(number));
        for key in (0..KEYS).filter(|&key| state.cookie(row.host(), key).is_some()) {
            let readers = policy.cookie(row.host(), key).readers;
            let gets = [partner, row].map(|url| readers.holds(url.message_endpoint()));
            match gets {
                [true, false] => seen.note(self.carries),
                [false, true] => seen.note(self.keeps_back),
                _ => {}
            }
        }
    }
}

/// The URL of a load.
pub const LOAD: Upgrade = Upgrade {
    sent: Event::LoadUpgraded,
    sent_against_row: Event::LoadUpgradedAgainstRow,
    forbidden: &[
        (Event::ReadersLoad, Event::LoadUpgradedReaders),
        (Event::WritersLoad, Event::LoadUpgradedMessage),
    ],
    carries: Event::LoadUpgradedCarries,
    keeps_back: Event::LoadUpgradedKeepsBack,
};

/// The target of a redirect.
pub const REDIRECT: Upgrade = Upgrade {
    sent: Event::RedirectUpgraded,
    sent_against_row: Event::RedirectUpgradedAgainstRow,
    forbidden: &[
        (Event::ReadersRedirect, Event::RedirectUpgradedReaders),
        (
            Event::WritersRedirectMessage,
            Event::RedirectUpgradedMessage,
        ),
        (Event::WritersRedirect, Event::RedirectUpgradedWriters),
    ],
    carries: Event::RedirectUpgradedCarries,
    keeps_back: Event::RedirectUpgradedKeepsBack,
};

/// The URL of a script's send.
pub const SEND: Upgrade = Upgrade {
    sent: Event::SendUpgraded,
    sent_against_row: Event::SendUpgradedAgainstRow,
    forbidden: &[
        (Event::EndSendFitReaders, Event::SendUpgradedReaders),
        (Event::EndSendFitWriters, Event::SendUpgradedMessage),
        (Event::EndSendUrlWriters, Event::SendUpgradedWriters),
    ],
    carries: Event::SendUpgradedCarries,
    keeps_back: Event::SendUpgradedKeepsBack,
};

/// The URL of a script's picture.
pub const PICTURE: Upgrade = Upgrade {
    sent: Event::PictureUpgraded,
    sent_against_row: Event::PictureUpgradedAgainstRow,
    forbidden: &[
        (Event::EndPictureFitReaders, Event::PictureUpgradedReaders),
        (Event::EndPictureFitWriters, Event::PictureUpgradedMessage),
        (Event::EndPictureUrlWriters, Event::PictureUpgradedWriters),
    ],
    carries: Event::PictureUpgradedCarries,
    keeps_back: Event::PictureUpgradedKeepsBack,
};
