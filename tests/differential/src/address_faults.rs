//! Monitors that have a single fault about address words: each is told from the reference.

use cases::labels::{Url, COOKIES_AT, ENTRY, HOSTS, NO_URL, PARTNERS_AT, POLICY_WORDS, URLS};
use reference::numbers::POLICY_BAD;

use crate::buffers::Buffers;
use crate::faults::{assert_found, misjudging, refusing};
use crate::https_faults::{overlook, Flaw, Wrong};

/// The first word that is too much for an entry, and the word of an empty row.
const NO_ENTRY: u32 = 2 * ENTRY;
const EMPTY: u32 = NO_URL[0];

/// Changes each row of a policy that has its length.
fn change_rows(buffers: &mut Buffers, change: impl Fn(&mut [u32])) {
    let policy = buffers.policy.inside_mut();
    if policy.len() == POLICY_WORDS {
        policy[..COOKIES_AT].chunks_exact_mut(3).for_each(change);
    }
}

/// Which address words are taken for which others.
type Taken = (fn(u32) -> bool, fn(u32) -> u32);

fn assert_taken_is_found((which, other): Taken) {
    let taking = misjudging(move |buffers| {
        change_rows(buffers, |row| {
            if which(row[0]) {
                row[0] = other(row[0]);
            }
        });
    });
    assert_found(taking, "answer's number");
}

/// A word that is an address or an entry's where it is cut, and the first that is neither.
#[test]
fn a_word_above_63_that_is_taken_is_found() {
    let taken: [Taken; 6] = [
        (|word| word == NO_ENTRY, |_| ENTRY),
        (|word| word < EMPTY, |word| word % NO_ENTRY),
        (
            |word| (NO_ENTRY..EMPTY).contains(&word),
            |word| word % ENTRY,
        ),
        (|word| word > EMPTY, |word| word % NO_ENTRY),
        (|word| word > EMPTY, |word| word % 256),
        (|word| word > EMPTY, |word| word % 0x1_0000),
    ];
    taken.into_iter().for_each(assert_taken_is_found);
}

/// The word before 255, 255 without the bit of an entry and 32 more than it, and every one above it.
#[test]
fn a_word_that_is_taken_for_255_is_found() {
    let taken: [Taken; 4] = [
        (|word| word == EMPTY - 1, |_| EMPTY),
        (|word| word == EMPTY - ENTRY, |_| EMPTY),
        (|word| word == EMPTY + ENTRY, |_| EMPTY),
        (|word| word > EMPTY, |_| EMPTY),
    ];
    taken.into_iter().for_each(assert_taken_is_found);
}

/// Whether a policy that has its length has a URL of which this holds.
fn has_url(buffers: &Buffers, holds: impl Fn(Url) -> bool) -> bool {
    (0..URLS as u8).any(|row| holds(Url::of(buffers.policy.inside(), row)))
}

#[test]
fn a_word_that_is_refused_is_found() {
    for word in [31, 32, 47, 48, 63] {
        let refuses = refusing(POLICY_BAD, move |buffers| {
            has_url(buffers, |url| url.word == word)
        });
        assert_found(refuses, "answer's number");
    }
    let sorts: [fn(Url) -> bool; 3] = [
        Url::is_entry,
        |url| url.is_entry() && url.is_http(),
        |url| url.is_entry() && url.is_https(),
    ];
    for sort in sorts {
        let refuses = refusing(POLICY_BAD, move |buffers| has_url(buffers, sort));
        assert_found(refuses, "answer's number");
    }
}

/// An entry whose event endpoint is not asked for, or another one in its place: the message endpoint, or https at the host.
#[test]
fn an_entry_with_other_readers_is_found() {
    let taken = misjudging(|buffers| change_entries(buffers, |url| url.readers | url.event()));
    assert_found(taken, "answer's number");
    let others: [fn(Url) -> u32; 2] = [Url::message, |url| url.event() << HOSTS];
    for other in others {
        let taken = misjudging(move |buffers| {
            change_entries(buffers, |url| match url.readers & other(url) {
                0 => url.readers,
                _ => url.readers | url.event(),
            });
        });
        assert_found(taken, "answer's number");
        let refuses = refusing(POLICY_BAD, move |buffers| {
            has_url(buffers, |url| {
                url.is_entry() && url.readers & other(url) == 0
            })
        });
        assert_found(refuses, "answer's number");
    }
}

/// Gives entries other readers.
fn change_entries(buffers: &mut Buffers, readers: impl Fn(Url) -> u32) {
    change_rows(buffers, |row| {
        let url = Url::of(row, 0);
        if url.is_entry() {
            row[1] = readers(url);
        }
    });
}

/// An entry by http taken for one by https, as if every word from 16 on were https; and one by https taken for http.
#[test]
fn an_entry_with_another_scheme_is_found() {
    let is_entry = |word| (ENTRY..NO_ENTRY).contains(&word);
    assert_taken_is_found((is_entry, |word| word | HOSTS as u32));
    assert_taken_is_found((is_entry, |word| word & !(HOSTS as u32)));
}

/// A wrong partner of an entry, or one that is an entry, or none where there must be one.
#[test]
fn a_wrong_partner_about_an_entry_that_is_taken_is_found() {
    let overlooked: [fn(&Wrong) -> bool; 4] = [
        |wrong| wrong.own.is_entry() && wrong.flaw == Flaw::Missing,
        |wrong| wrong.own.is_entry() && wrong.flaw == Flaw::NotOne,
        |wrong| wrong.other.is_some_and(Url::is_entry) && wrong.flaw == Flaw::Http,
        |wrong| wrong.other.is_some_and(Url::is_entry) && wrong.flaw == Flaw::OtherHost,
    ];
    for overlooked in overlooked {
        let takes = misjudging(move |buffers| overlook(buffers, overlooked));
        assert_found(takes, "answer's number");
    }
}

/// Whether some row and its partner are such.
fn has_pair(buffers: &Buffers, holds: fn(Url, Url) -> bool) -> bool {
    let policy = buffers.policy.inside();
    (0..URLS as u8).any(|row| {
        let partner = policy[PARTNERS_AT + usize::from(row)];
        let exists = partner < URLS as u32;
        exists && holds(Url::of(policy, row), Url::of(policy, partner as u8))
    })
}

#[test]
fn a_partner_about_an_entry_that_is_refused_is_found() {
    let pairs: [fn(Url, Url) -> bool; 4] = [
        |row, _| row.is_entry(),
        |_, partner| partner.is_entry(),
        |row, partner| row.is_entry() && !partner.is_entry(),
        |row, partner| !row.is_entry() && partner.is_entry(),
    ];
    for pair in pairs {
        let refuses = refusing(POLICY_BAD, move |buffers| has_pair(buffers, pair));
        assert_found(refuses, "answer's number");
    }
}
