//! What is lacking, put right, is accepted: so nothing that is lacking was left out.

use crate::draw::Draw;
use crate::policies::{self, CONNECTIONS, URLS};
use explain::{explain_and_compare, Lack, Owner, Set, Why};
use zolherima::{Cookies, Policy, Record, Scripts, State};

/// Where the policy has the sets of connections: before the word of hosts and the partners.
const CONNECTIONS_AT: usize =
    zolherima::POLICY_WORDS - 1 - zolherima::URLS - 3 * zolherima::CONNECTIONS;

#[test]
fn a_load_is_accepted_once_all_that_it_lacks_is_added() {
    for seed in 0..500 {
        let mut draw = Draw::new(seed);
        let policy = policies::policy(&mut draw);
        let load = Record::load(draw.of(&URLS), draw.of(&CONNECTIONS));
        if let Some(lacks) = first_lacks(&policy, &[load]) {
            assert_eq!(first_lacks(&with(&policy, &lacks), &[load]), None);
        }
    }
}

/// What is added for a redirect may call for more, of the load and of the redirect itself: a connection's new reader has to be one of the URL's, and
/// its new writer one of the target's. That is at most twice for each of the two.
#[test]
fn a_redirect_is_accepted_once_nothing_is_lacking() {
    for seed in 0..500 {
        let mut draw = Draw::new(seed);
        let mut policy = policies::policy(&mut draw);
        let (url, connection) = (draw.of(&URLS), draw.of(&CONNECTIONS));
        let asked = policy.asked_for(url.into()) as u8;
        let session = [
            Record::load(url, connection),
            Record::redirect(asked, connection, &Cookies::NONE, draw.of(&URLS)),
        ];
        let rounds = (0..5)
            .map_while(|_| repaired(&mut policy, &session))
            .count();
        assert!(rounds < 5, "seed {seed}");
    }
}

fn repaired(policy: &mut Policy, session: &[Record]) -> Option<()> {
    let lacks = first_lacks(policy, session)?;
    *policy = with(policy, &lacks);
    Some(())
}

/// What the first record lacks that is not accepted.
fn first_lacks(policy: &Policy, session: &[Record]) -> Option<Vec<Lack>> {
    let mut state = State::new();
    session.iter().find_map(|record| {
        let explained = explain_and_compare(policy, &Scripts::new(), &mut state, record);
        match explained.unwrap().outcome {
            Ok(_) => None,
            Err((_, Why::Labels(lacks))) => Some(lacks),
            Err(refused) => panic!("{refused:?}"),
        }
    })
}

/// The policy with all that is missing added where it is lacking.
fn with(policy: &Policy, lacks: &[Lack]) -> Policy {
    let mut words = *policy.words();
    for lack in lacks {
        words[place(lack)] |= lack.missing.bits();
    }
    Policy::from_words(&words).unwrap()
}

fn place(lack: &Lack) -> usize {
    match (lack.lacking, lack.set) {
        (Owner::Url(url), Set::Readers) => 3 * url as usize + 1,
        (Owner::Url(url), Set::Writers) => 3 * url as usize + 2,
        (Owner::Connection(connection), Set::Readers) => CONNECTIONS_AT + 3 * connection as usize,
        (Owner::Connection(connection), Set::Writers) => {
            CONNECTIONS_AT + 3 * connection as usize + 2
        }
        _ => panic!("{lack:?}"),
    }
}
