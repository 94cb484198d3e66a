//! Which endpoint is missing where labels forbid a record: each of the six conditions with every endpoint, which condition is told of, and that no
//! other outcome tells of any.

#[path = "common/asked.rs"]
mod asked;
mod common;
#[path = "common/setup.rs"]
mod setup;

use asked::{
    set_lacking, set_load, set_named, set_redirect, Lacking, FREE, LOAD, LOAD_NAMED, OWN, PAGE,
    REDIRECT, REDIRECT_NAMED, URL,
};
use common::{for_each_feed, walk_input, Session};
use reference::layout::{ENTRY, NONE_MISSING, OUTPUT_BYTES, STATE_PRESENT};
use reference::Answer;
use setup::{open, set, set_script_readers, ALL};

/// Each pair of endpoints, the lower one first, and each endpoint twice.
fn pairs() -> impl Iterator<Item = [u32; 2]> {
    (0..32).flat_map(|low| (low..32).map(move |high| [low, high]))
}

/// An https address whose event endpoint is neither of the two.
fn address_beside(pair: [u32; 2]) -> u32 {
    let host = (0..16).find(|host| !pair.contains(host));
    16 + host.expect("there are more hosts than two")
}

// The three conditions that ask of a set to be within another.

#[test]
fn the_lowest_of_the_readers_that_a_loads_url_lacks() {
    for_each_feed(|mut session| {
        for pair in pairs() {
            let url = [address_beside(pair), ALL & !set(&pair), 0];
            set_load(&mut session, url, ALL, ALL);
            assert_eq!(session.refusal(&LOAD), (8, pair[0]), "{pair:?}");
            set_load(&mut session, url, set(&pair), ALL);
            assert_eq!(session.refusal(&LOAD), (8, pair[0]), "{pair:?}");
        }
    });
}

#[test]
fn the_lowest_of_the_readers_that_a_redirects_target_lacks() {
    for_each_feed(|mut session| {
        for pair in pairs() {
            let address = address_beside(pair);
            let url = [address, ALL & !set(&pair), ALL];
            set_redirect(&mut session, url, ALL, ALL);
            assert_eq!(session.refusal(&REDIRECT), (8, pair[0]), "{pair:?}");
            let readers = set(&pair) | set(&[address - 16]);
            set_redirect(&mut session, url, readers, ALL);
            assert_eq!(session.refusal(&REDIRECT), (8, pair[0]), "{pair:?}");
        }
    });
}

#[test]
fn the_lowest_of_the_writers_that_a_redirects_target_lacks() {
    for_each_feed(|mut session| {
        for pair in pairs() {
            let address = address_beside(pair);
            let url = [address, ALL, ALL & !set(&pair)];
            set_redirect(&mut session, url, ALL, ALL);
            assert_eq!(session.refusal(&REDIRECT), (9, pair[0]), "{pair:?}");
            let writers = set(&pair) | set(&[address]);
            set_redirect(&mut session, url, ALL, writers);
            assert_eq!(session.refusal(&REDIRECT), (9, pair[0]), "{pair:?}");
        }
    });
}

// The three that ask of a set to have an endpoint.

/// Every address word, an address or an entry's, with the address.
fn words() -> impl Iterator<Item = (u32, u32)> {
    (0..2 * ENTRY).map(|word| (word, word % ENTRY))
}

#[test]
fn the_message_endpoint_of_a_load() {
    for_each_feed(|mut session| {
        for (word, address) in words() {
            for url_writers in [0, 1, ALL] {
                for writers in [0, ALL & !set(&[address])] {
                    set_load(&mut session, [word, ALL, url_writers], ALL, writers);
                    assert_eq!(session.refusal(&LOAD), (9, address), "{word}");
                }
            }
        }
    });
}

#[test]
fn the_event_endpoint_of_a_redirect() {
    for_each_feed(|mut session| {
        for (word, address) in words() {
            let event = address % 16;
            for readers in [0, ALL & !set(&[event])] {
                set_redirect(&mut session, [word, ALL, ALL], readers, ALL);
                assert_eq!(session.refusal(&REDIRECT), (8, event), "{word}");
            }
        }
    });
}

#[test]
fn the_message_endpoint_of_a_redirect() {
    for_each_feed(|mut session| {
        for (word, address) in words() {
            for url_writers in [0, ALL] {
                let writers = ALL & !set(&[address]);
                set_redirect(&mut session, [word, ALL, url_writers], ALL, writers);
                assert_eq!(session.refusal(&REDIRECT), (9, address), "{word}");
            }
        }
    });
}

// Several conditions at once: the first that fails tells, whatever is missing in the others, be it lower or higher.

/// The address words of URLs at host 5, whose event endpoint is 5.
const WORDS: [u32; 4] = [5, 21, ENTRY + 5, ENTRY + 21];
const HTTPS_WORDS: [u32; 2] = [21, ENTRY + 21];

/// Every few of the conditions fail, and none, for a URL of each of these address words. The readers and the writers that it lacks are below, between
/// and above its endpoints.
fn for_each_failing(words: &[u32], mut case: impl FnMut(u32, Lacking)) {
    for &word in words {
        for readers in [[1, 2], [6, 7], [25, 26]] {
            for writers in [[3, 4], [8, 9], [27, 28]] {
                let all: Lacking = [&[5], &readers, &[word % ENTRY], &writers];
                for fails in 0..16 {
                    case(word, failing(all, fails));
                }
            }
        }
    }
}

/// What is lacking where just the conditions fail whose bit stands.
fn failing(all: Lacking, fails: u32) -> Lacking {
    std::array::from_fn(|condition| match fails >> condition & 1 {
        0 => &[][..],
        _ => all[condition],
    })
}

/// The number and the lowest endpoint of the first of these conditions that fails; 0 and 32 where none does.
fn first_of(conditions: &[(u32, &[u32])]) -> (u32, u32) {
    let first = conditions.iter().find(|(_, lacking)| !lacking.is_empty());
    match first {
        Some((number, lacking)) => (*number, lacking[0]),
        None => (0, 32),
    }
}

fn told_of_load([_, readers, message, _]: Lacking) -> (u32, u32) {
    first_of(&[(8, readers), (9, message)])
}

/// The writers that an entry lacks are not asked for.
fn told_of_redirect(word: u32, [event, readers, message, writers]: Lacking) -> (u32, u32) {
    let writers = if word < ENTRY { writers } else { &[] };
    first_of(&[(8, event), (8, readers), (9, message), (9, writers)])
}

/// Number and missing endpoint of the answer to a record; the session stays as it is.
fn told(session: &Session, record: &[u8]) -> (u32, u32) {
    let (answer, _) = session.clone().answer(record);
    (answer.number, answer.missing)
}

#[test]
fn the_first_condition_of_a_load_that_fails() {
    for_each_feed(|mut session| {
        for_each_failing(&WORDS, |word, lacking| {
            set_lacking(&mut session, word, lacking);
            let expected = told_of_load(lacking);
            assert_eq!(told(&session, &LOAD), expected, "{word} {lacking:?}");
        });
    });
}

#[test]
fn the_first_condition_of_a_redirect_that_fails() {
    for_each_feed(|mut session| {
        for_each_failing(&WORDS, |word, lacking| {
            set_lacking(&mut session, word, lacking);
            let expected = told_of_redirect(word, lacking);
            assert_eq!(told(&session, &REDIRECT), expected, "{word} {lacking:?}");
        });
    });
}

/// Connection 8 holds the page: as a document, as a script's request, as a picture.
const HELD: [u32; 3] = [0x0100_000A, 0x020A_010A, 0x0300_000A];

/// A load replaces what is pending, and is judged as if nothing were.
#[test]
fn a_load_on_an_open_connection_tells_the_same() {
    for_each_feed(|mut session| {
        for_each_failing(&WORDS, |word, lacking| {
            set_lacking(&mut session, word, lacking);
            for held in HELD {
                open(&mut session, OWN, held);
                let load = [0x03, URL, OWN as u8];
                let expected = told_of_load(lacking);
                assert_eq!(told(&session, &load), expected, "{word} {lacking:?}");
            }
        });
    });
}

#[test]
fn a_redirect_of_each_kind_tells_the_same_with_cookies_and_without() {
    for_each_feed(|mut session| {
        for_each_failing(&WORDS, |word, lacking| {
            set_lacking(&mut session, word, lacking);
            for held in HELD {
                open(&mut session, OWN, held);
                let with_cookies = [0x27, PAGE, OWN as u8, 1, 0, 0, 0, 7, URL];
                let expected = told_of_redirect(word, lacking);
                assert_eq!(told(&session, &REDIRECT), expected, "{word} {lacking:?}");
                assert_eq!(told(&session, &with_cookies), expected);
            }
        });
    });
}

/// No reader is a script reader, or just the higher one of each two that the URL may lack.
#[test]
fn loads_and_redirects_do_not_ask_script_readers() {
    for_each_feed(|mut session| {
        for_each_failing(&WORDS, |word, lacking| {
            set_lacking(&mut session, word, lacking);
            for script_readers in [0, set(&[2, 7, 26])] {
                set_script_readers(&mut session, FREE, script_readers);
                set_script_readers(&mut session, OWN, script_readers);
                let load = told(&session, &LOAD);
                assert_eq!(load, told_of_load(lacking), "{word} {lacking:?}");
                let redirect = told(&session, &REDIRECT);
                assert_eq!(redirect, told_of_redirect(word, lacking));
            }
        });
    });
}

/// What is missing is missing for the partner, whatever would be for the URL that is named, and whichever of the two is an entry.
#[test]
fn the_endpoint_that_is_missing_for_the_partner() {
    for_each_feed(|mut session| {
        for_each_failing(&HTTPS_WORDS, |word, lacking| {
            set_lacking(&mut session, word, lacking);
            for (named, lacks) in [(5, &[][..]), (5, &[0]), (ENTRY + 5, &[0])] {
                set_named(&mut session, named, [lacks, lacks]);
                let load = told(&session, &LOAD_NAMED);
                assert_eq!(load, told_of_load(lacking), "{word} {lacking:?}");
                let redirect = told(&session, &REDIRECT_NAMED);
                assert_eq!(redirect, told_of_redirect(word, lacking));
            }
        });
    });
}

// Every other outcome.

/// No endpoint is missing, whatever labels would say of the record.
fn outcome(number: u32, bytes: u32, steps: u32) -> Answer {
    Answer {
        number,
        bytes,
        steps,
        missing: 32,
    }
}

#[test]
fn none_is_missing_for_an_accepted_record() {
    assert_eq!(NONE_MISSING, 32);
    for_each_feed(|mut session| {
        assert_eq!(session.answer(&[0x03, 0, 0]).0, outcome(0, 3, 0));
        assert_eq!(session.answer(&[0x0B, 0, 0, 0]).0, outcome(0, 0, 1));
        assert_eq!(session.answer(&[0x03, 1, 1]).0, outcome(0, 3, 0));
        assert_eq!(session.answer(&[0x23, 1, 1, 1]).0, outcome(0, 3, 0));
        open(&mut session, 1, 0x0203_0501);
        let response = [0x13, 1, 1, 0, 0, 0, 0];
        assert_eq!(session.answer(&response).0, outcome(0, 0, 1));
        open(&mut session, 1, 0x0300_0001);
        assert_eq!(session.answer(&[0x43, 1, 1]).0, outcome(0, 0, 0));
        set_load(&mut session, [21, ALL, 0], ALL, ALL); // a load asks for no writers of the URL
        assert_eq!(session.answer(&LOAD).0, outcome(0, 3, 0));
        set_redirect(&mut session, [ENTRY + 21, ALL, 0], ALL, ALL); // nor does a redirect to an entry
        assert_eq!(session.answer(&REDIRECT).0, outcome(0, 3, 0));
        set_redirect(&mut session, [21, ALL, 0], 0, ALL); // a response asks for nothing
        assert_eq!(
            session.answer(&[0x0B, PAGE, OWN as u8, 0]).0,
            outcome(0, 0, 1)
        );
    });
}

/// Readers forbid the load of URL 0 on connection 1, and a redirect from URL 1 to URL 0.
#[test]
fn none_is_missing_where_another_number_refuses() {
    for_each_feed(|mut session| {
        let load = [0x03, 0, 1];
        let refused: [(&[u8], u32); 9] = [
            (&[], 10),
            (&[0x07, 0, 1], 10),
            (&[0x27, 1, 1, 0, 0], 12),
            (&[0x03, 0, 1, 0], 11),
            (&[0x03, 64, 1], 6),
            (&[0x03, 4, 1], 6),
            (&[0x0B, 0, 1, 16], 6),
            (&[0x0B, 0, 1, 0], 7),
            (&[0x23, 1, 1, 0], 7),
        ];
        for (record, number) in refused {
            assert_eq!(session.answer(record).0, outcome(number, 0, 0));
        }
        assert_eq!(session.refusal(&load), (8, 1));
        session.state[STATE_PRESENT] = 256;
        assert_eq!(session.answer(&load).0, outcome(4, 0, 0));
        session.scripts.pop();
        assert_eq!(session.answer(&load).0, outcome(3, 0, 0));
        session.policy.pop();
        assert_eq!(session.answer(&load).0, outcome(2, 0, 0));
        let Session {
            policy,
            scripts,
            mut state,
            feed,
        } = session;
        let mut short = [0; OUTPUT_BYTES - 1];
        let answer = feed(&policy, &scripts, &mut state, &load, &mut short);
        assert_eq!(answer, outcome(1, 0, 0));
    });
}

// The program walk.

/// Reader 1 of a load, the message endpoint 0 of another; the event endpoint 1 of a redirect, writer 0 of another; a connection that there is not.
#[test]
fn walk_prints_what_is_missing() {
    let records = [
        &[3, 0x03, 0, 1][..],
        &[3, 0x03, 3, 0],
        &[3, 0x03, 0, 0],
        &[4, 0x23, 0, 0, 2],
        &[3, 0x03, 1, 1],
        &[4, 0x23, 1, 1, 2],
        &[3, 0x03, 0, 32],
    ];
    let lines = "\
1 8 0 0 1
2 9 0 0 0
3 0 3 0 32
> 0 0 00
4 8 0 0 1
5 0 3 0 32
> 1 1 00
6 9 0 0 0
7 6 0 0 32
end 2 5
";
    assert_eq!(reference::walk(&walk_input(&records.concat())), lines);
}
