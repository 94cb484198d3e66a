//! Monitors that have a single fault about what an entry is excused from: each is told from the reference.

use cases::labels::{
    within, Connection, Pending, Url, CONNECTIONS, CONNECTIONS_AT, COOKIES_AT, DOCUMENT, ENTRY,
    HOSTS, KEYS, PICTURE, POLICY_WORDS, PRESENT_AT, SCRIPT, STATE_WORDS, URLS,
};
use cases::record::{LOAD, REDIRECT, SCRIPT_RESPONSE};
use reference::numbers::{READERS_FORBID, STATE_UNSOUND, WRITERS_FORBID};

use crate::asked::{
    asked, connection, map, partner_of, pending, works_on_cookies, PICTURE_STEP, RESPONSES,
    SEND_STEP,
};
use crate::buffers::Buffers;
use crate::checker::Monitor;
use crate::faults::{assert_found, honest, misjudging, missending, mistaking, refusing};

/// Where writers of the URL are asked for, and what tells a monitor that has another answer there.
const PLACES: [(u8, &str); 3] = [
    (REDIRECT, "answer's number"),
    (SEND_STEP, "answer's bytes"),
    (PICTURE_STEP, "answer's bytes"),
];

const LOAD_AND_PLACES: [(u8, &str); 4] =
    [(LOAD, "answer's number"), PLACES[0], PLACES[1], PLACES[2]];

/// A URL that is asked for, where policy, row and connection are there.
#[derive(Clone, Copy)]
struct Link {
    place: u8,
    /// The row that is named, and what is asked for in its place.
    row: u8,
    number: u8,
    named: Url,
    url: Url,
    /// The connection that is opened or moved.
    connection: u8,
}

fn all_links(buffers: &Buffers) -> Vec<Link> {
    let policy = buffers.policy.inside();
    if policy.len() != POLICY_WORDS {
        return Vec::new();
    }
    let there = asked(buffers).into_iter().filter(|asked| {
        usize::from(asked.row) < URLS && usize::from(asked.connection) < CONNECTIONS
    });
    let links = there.map(|asked| {
        let number = partner_of(buffers, asked.row).unwrap_or(asked.row);
        Link {
            place: asked.place,
            row: asked.row,
            number,
            named: Url::of(policy, asked.row),
            url: Url::of(policy, number),
            connection: asked.connection,
        }
    });
    links.filter(|link| link.url.exists()).collect()
}

/// What is asked for at a place, where the same URL is not asked for elsewhere or by another row.
fn links(buffers: &Buffers, place: u8) -> Vec<Link> {
    let all = all_links(buffers);
    let clashes = |one: &Link, other: &Link| {
        one.number == other.number && (one.row, one.place) != (other.row, other.place)
    };
    let mut there = all.clone();
    there.retain(|link| link.place == place && !all.iter().any(|other| clashes(link, other)));
    there
}

/// The entries of these.
fn entry_links(buffers: &Buffers, place: u8) -> Vec<Link> {
    let mut there = links(buffers, place);
    there.retain(|link| link.url.is_entry());
    there
}

/// Takes each URL that is asked for at a place for an entry or for none.
fn decide(buffers: &mut Buffers, place: u8, is_entry: fn(&Link) -> bool) {
    for link in links(buffers, place) {
        set_entry(buffers, link.number, is_entry(&link));
    }
}

fn set_entry(buffers: &mut Buffers, row: u8, is_entry: bool) {
    let word = &mut buffers.policy.inside_mut()[3 * usize::from(row)];
    *word = *word % ENTRY + if is_entry { ENTRY } else { 0 };
}

#[test]
fn an_entry_that_is_not_excused_is_found() {
    for (place, what) in PLACES {
        let not_excused = misjudging(move |buffers| decide(buffers, place, |_| false));
        assert_found(not_excused, what);
    }
    for kind in [DOCUMENT, SCRIPT, PICTURE] {
        let not_excused = misjudging(move |buffers| {
            if pending(buffers).is_some_and(|held| held.kind == kind) {
                decide(buffers, REDIRECT, |_| false);
            }
        });
        assert_found(not_excused, "answer's number");
    }
}

#[test]
fn a_url_that_is_excused_and_no_entry_is_found() {
    for (place, what) in PLACES {
        let excused = mistaking(move |buffers| decide(buffers, place, |_| true));
        assert_found(excused, what);
    }
}

#[test]
fn entries_by_http_or_by_https_alone_are_found() {
    let alone: [fn(&Link) -> bool; 2] = [
        |link| link.url.is_entry() && link.url.is_http(),
        |link| link.url.is_entry() && link.url.is_https(),
    ];
    for is_entry in alone {
        for (place, what) in PLACES {
            let alone = misjudging(move |buffers| decide(buffers, place, is_entry));
            assert_found(alone, what);
        }
    }
}

/// The row that is named, either of the two, or only both.
#[test]
fn an_entry_that_is_decided_before_the_replacement_is_found() {
    let before: [fn(&Link) -> bool; 3] = [
        |link| link.named.is_entry(),
        |link| link.named.is_entry() || link.url.is_entry(),
        |link| link.named.is_entry() && link.url.is_entry(),
    ];
    for is_entry in before {
        for (place, what) in PLACES {
            let before = misjudging(move |buffers| decide(buffers, place, is_entry));
            assert_found(before, what);
        }
    }
}

/// The URL that a redirect leaves, or the page of a script.
fn from(buffers: &Buffers) -> Option<Url> {
    let held = pending(buffers)?;
    let number = match map(buffers) {
        SCRIPT_RESPONSE => held.origin,
        _ => held.url,
    };
    let policy = buffers.policy.inside();
    let exists = policy.len() == POLICY_WORDS && usize::from(number) < URLS;
    exists.then(|| Url::of(policy, number))
}

#[test]
fn an_entry_that_is_decided_by_where_it_is_linked_from_is_found() {
    for (place, what) in PLACES {
        let by_page = misjudging(move |buffers| {
            for link in links(buffers, place) {
                let is_entry = from(buffers).is_some_and(Url::is_entry);
                set_entry(buffers, link.number, is_entry);
            }
        });
        assert_found(by_page, what);
    }
}

/// The readers, script readers and writers of a connection.
fn sets_of(buffers: &mut Buffers, connection: u8) -> &mut [u32] {
    let at = CONNECTIONS_AT + 3 * usize::from(connection);
    &mut buffers.policy.inside_mut()[at..at + 3]
}

/// Whether the labels of the record's connection allow each step that sends a request.
fn allowed(buffers: &Buffers, own: u8) -> Vec<bool> {
    let policy = buffers.policy.inside();
    let own = Connection::of(policy, own);
    let links = all_links(buffers).into_iter();
    let sends = |link: Link| own.sends(link.url, Connection::of(policy, link.connection));
    links.map(sends).collect()
}

/// Whether only entries at a place are judged otherwise in the second, and none of them is forbidden there that was allowed.
fn excuses_entries(buffers: &Buffers, changed: &Buffers, own: u8, place: u8) -> bool {
    let judged = allowed(buffers, own).into_iter().zip(allowed(changed, own));
    let mut judged = all_links(buffers).into_iter().zip(judged);
    judged.all(|(link, (before, after))| {
        before == after || (after && link.place == place && link.url.is_entry())
    })
}

/// A monitor that asks less of an entry at a place: `change` makes what it is asked for hold, given the labels of the record's connection.
fn excusing(place: u8, change: fn(&mut Buffers, &Link, Connection)) -> Monitor {
    mistaking(move |buffers| {
        let Some(own) = connection(buffers) else {
            return;
        };
        let is_record = [LOAD, REDIRECT].contains(&place);
        for link in entry_links(buffers, place) {
            let mut changed = buffers.clone();
            let labels = Connection::of(buffers.policy.inside(), own);
            change(&mut changed, &link, labels);
            let is_other = link.connection != own;
            if is_record || (is_other && excuses_entries(buffers, &changed, own, place)) {
                *buffers = changed;
            }
        }
    })
}

#[test]
fn an_entry_that_is_excused_from_the_message_endpoint_is_found() {
    for (place, what) in LOAD_AND_PLACES {
        let excused = excusing(place, |buffers, link, _| {
            sets_of(buffers, link.connection)[2] |= link.url.message();
        });
        assert_found(excused, what);
    }
}

/// The script's writers need not be within the connection's.
#[test]
fn an_entry_that_is_excused_from_the_connections_writers_is_found() {
    for (place, what) in &PLACES[1..] {
        let excused = excusing(*place, |buffers, link, own| {
            sets_of(buffers, link.connection)[2] |= own.writers & !link.url.message();
        });
        assert_found(excused, what);
    }
}

/// The connection's readers need not be within the URL's.
#[test]
fn an_entry_that_is_excused_from_its_readers_is_found() {
    for (place, what) in LOAD_AND_PLACES {
        let excused = excusing(place, |buffers, link, _| {
            let readers = Connection::of(buffers.policy.inside(), link.connection).readers;
            buffers.policy.inside_mut()[3 * usize::from(link.number) + 1] |= readers;
        });
        assert_found(excused, what);
    }
}

/// The connection's readers need not be within the script's.
#[test]
fn an_entry_that_is_excused_from_the_script_readers_is_found() {
    for (place, what) in &PLACES[1..] {
        let excused = excusing(*place, |buffers, link, own| {
            let sets = sets_of(buffers, link.connection);
            sets[..2]
                .iter_mut()
                .for_each(|set| *set &= own.script_readers);
        });
        assert_found(excused, what);
    }
}

/// The event endpoint need not be among the connection's readers; or the script's, of a script that goes by them in nothing else.
#[test]
fn an_entry_that_is_excused_from_the_event_endpoint_is_found() {
    let redirect = excusing(REDIRECT, |buffers, link, _| {
        sets_of(buffers, link.connection)[0] |= link.url.event();
    });
    assert_found(redirect, "answer's number");
    for (place, what) in &PLACES[1..] {
        let excused = excusing(*place, |buffers, link, own| {
            let connection = connection(buffers).filter(|_| !works_on_cookies(buffers));
            if let Some(connection) = connection {
                sets_of(buffers, connection)[1] |= link.url.event() & own.readers;
            }
        });
        assert_found(excused, what);
    }
}

/// Whether a load's connection has writers that its URL does not have, and the URL is such.
fn loads_outside(buffers: &Buffers, is_asked: fn(Url) -> bool) -> bool {
    links(buffers, LOAD).iter().any(|link| {
        let writers = Connection::of(buffers.policy.inside(), link.connection).writers;
        is_asked(link.url) && !within(writers, link.url.writers)
    })
}

#[test]
fn a_load_that_is_asked_for_writers_is_found() {
    let asked: [fn(Url) -> bool; 3] = [|url| !url.is_entry(), Url::is_entry, |_| true];
    for is_asked in asked {
        let refuses = refusing(WRITERS_FORBID, move |buffers| {
            loads_outside(buffers, is_asked)
        });
        assert_found(refuses, "answer's number");
    }
}

/// The connections that hold an entry.
fn holding(buffers: &Buffers) -> Vec<(u8, Pending)> {
    let (policy, state) = (buffers.policy.inside(), buffers.state.inside());
    if policy.len() != POLICY_WORDS || state.len() != STATE_WORDS {
        return Vec::new();
    }
    let held =
        (0..CONNECTIONS as u8).map(|connection| (connection, Pending::of(state, connection)));
    let entries = held.filter(|(_, held)| {
        held.kind != 0 && usize::from(held.url) < URLS && Url::of(policy, held.url).is_entry()
    });
    entries.collect()
}

#[test]
fn a_state_that_is_judged_otherwise_with_an_entry_is_found() {
    let refuses = refusing(STATE_UNSOUND, |buffers| !holding(buffers).is_empty());
    assert_found(refuses, "answer's number");
    let message_excused = mistaking(|buffers| {
        for (connection, held) in holding(buffers) {
            let url = Url::of(buffers.policy.inside(), held.url);
            sets_of(buffers, connection)[2] |= url.message();
        }
    });
    assert_found(message_excused, "answer's number");
    let readers_excused = mistaking(|buffers| {
        for (connection, held) in holding(buffers) {
            let readers = Connection::of(buffers.policy.inside(), connection).readers;
            buffers.policy.inside_mut()[3 * usize::from(held.url) + 1] |= readers;
        }
    });
    assert_found(readers_excused, "answer's number");
}

/// The word itself for the message endpoint, which is then in no set; and 16 less for the event endpoint, as of any https address, which for an entry
/// by http is then https at the host.
#[test]
fn an_endpoint_of_the_word_itself_is_found() {
    for place in [LOAD, REDIRECT] {
        let refuses = refusing(WRITERS_FORBID, move |buffers| {
            !entry_links(buffers, place).is_empty()
        });
        assert_found(refuses, "answer's number");
    }
    let refuses = refusing(READERS_FORBID, |buffers| {
        entry_links(buffers, REDIRECT).iter().any(|link| {
            let readers = Connection::of(buffers.policy.inside(), link.connection).readers;
            link.url.is_http() && !within(link.url.event() << HOSTS, readers)
        })
    });
    assert_found(refuses, "answer's number");
}

/// A request to an entry carries no cookie, or also those that its message endpoint may not read.
#[test]
fn an_entry_that_has_other_cookies_is_found() {
    let cookies: [fn(u32, Url) -> u32; 2] = [
        |readers, url| readers & !url.message(),
        |readers, url| readers | url.message(),
    ];
    for of_entry in cookies {
        for (place, _) in LOAD_AND_PLACES {
            let other = missending(move |buffers| {
                for link in entry_links(buffers, place) {
                    let policy = buffers.policy.inside_mut();
                    let labels = &mut policy[COOKIES_AT + 2 * KEYS * link.url.host()..];
                    for readers in labels.iter_mut().step_by(2).take(KEYS) {
                        *readers = of_entry(*readers, link.url);
                    }
                }
            });
            assert_found(other, "answer's bytes");
        }
    }
}

/// Exchanges two parts of a list: those of these numbers, where each has so many places from the first on.
fn exchange(list: &mut [u32], first: usize, places: usize, [one, other]: [usize; 2]) {
    for place in first..first + places {
        list.swap(place + places * one, place + places * other);
    }
}

/// The values of cookies and which there are, of two hosts.
fn exchange_cookies(buffers: &mut Buffers, hosts: [usize; 2]) {
    exchange(buffers.state.inside_mut(), 0, KEYS, hosts);
    exchange(buffers.state.inside_mut(), PRESENT_AT, 1, hosts);
}

/// A monitor that takes the cookies of one host for those of another.
fn exchanging(hosts: fn(&Buffers) -> Option<[usize; 2]>) -> Monitor {
    Box::new(move |buffers| {
        let lengths = (buffers.policy.inside().len(), buffers.state.inside().len());
        let hosts = hosts(buffers).filter(|_| lengths == (POLICY_WORDS, STATE_WORDS));
        let Some(hosts) = hosts else {
            return honest(buffers);
        };
        let mut mistaken = buffers.clone();
        exchange(mistaken.policy.inside_mut(), COOKIES_AT, 2 * KEYS, hosts);
        exchange_cookies(&mut mistaken, hosts);
        let answer = honest(&mut mistaken);
        exchange_cookies(&mut mistaken, hosts);
        buffers.copy_written(&mistaken);
        answer
    })
}

/// The host of an entry, and what the word itself gives, divided by the number of hosts.
fn hosts_of(url: Url) -> Option<[usize; 2]> {
    let hosts = [url.host(), url.word as usize / HOSTS];
    url.is_entry().then_some(hosts)
}

#[test]
fn a_host_of_the_word_itself_is_found() {
    let of_load = exchanging(|buffers| hosts_of(links(buffers, LOAD).first()?.url));
    assert_found(of_load, "answer's bytes");
    let of_response = exchanging(|buffers| {
        let is_response = RESPONSES.contains(&map(buffers));
        from(buffers).filter(|_| is_response).and_then(hosts_of)
    });
    assert_found(of_response, "state");
}
