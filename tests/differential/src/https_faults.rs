//! Monitors that have a single fault about hosts that are always https: each is told from the reference.

use cases::labels::{
    upgraded, Connection, Pending, Url, CONNECTIONS, COOKIES_AT, HOSTS, HTTPS_HOSTS_AT, KEYS,
    NO_PARTNER, OPEN_AT, PARTNERS_AT, POLICY_WORDS, STEP_BYTES, URLS,
};
use cases::record::{DOCUMENT_RESPONSE, LOAD, REDIRECT, SCRIPT_RESPONSE};
use reference::numbers::{POLICY_BAD, STATE_UNSOUND};

use crate::asked::{
    asked, map, partner_of, pending, request_at, Asked, PICTURE_STEP, RESPONSES, SEND_STEP,
};
use crate::buffers::Buffers;
use crate::faults::{assert_found, missending, mistaking, refusing};

const LAST_ROW: u8 = URLS as u8 - 1;
const LAST_HOST: usize = HOSTS - 1;

/// Replaces a byte by the partner of the row that it names.
fn upgrade_record(buffers: &mut Buffers, place: usize) {
    if let Some(&url) = buffers.record.inside().get(place) {
        let partner = partner_of(buffers, url).unwrap_or(url);
        buffers.record.inside_mut()[place] = partner;
    }
}

fn upgrade_steps(buffers: &mut Buffers, op: u8) {
    for place in 0..buffers.scripts.inside().len() / STEP_BYTES {
        let step = &buffers.scripts.inside()[STEP_BYTES * place..][..STEP_BYTES];
        if let (true, Some(partner)) = (step[0] == op, partner_of(buffers, step[1])) {
            buffers.scripts.inside_mut()[STEP_BYTES * place + 1] = partner;
        }
    }
}

/// Nothing is replaced from then on.
fn unlist(buffers: &mut Buffers) {
    let policy = buffers.policy.inside_mut();
    if policy.len() == POLICY_WORDS {
        policy[HTTPS_HOSTS_AT] = 0;
        policy[PARTNERS_AT..].fill(NO_PARTNER);
    }
}

#[test]
fn a_url_that_is_replaced_in_a_response_is_found() {
    for maps in [&RESPONSES[..], &[REDIRECT]] {
        let upgrades = mistaking(move |buffers| {
            if maps.contains(&map(buffers)) {
                upgrade_record(buffers, 1);
            }
        });
        assert_found(upgrades, "answer's number");
    }
}

#[test]
fn a_url_that_is_not_replaced_is_found() {
    for (of_map, what) in [(LOAD, "state"), (REDIRECT, "answer's number")] {
        let leaves = mistaking(move |buffers| {
            if map(buffers) == of_map {
                unlist(buffers);
            }
        });
        assert_found(leaves, what);
    }
    for other_op in [PICTURE_STEP, SEND_STEP] {
        let leaves = mistaking(move |buffers| {
            if RESPONSES.contains(&map(buffers)) {
                upgrade_steps(buffers, other_op);
                unlist(buffers);
            }
        });
        assert_found(leaves, "state");
    }
}

/// A number above 63 taken for the row of its low bits.
#[test]
fn a_number_that_is_cut_is_found() {
    let cut = mistaking(|buffers| {
        if let Some(place) = request_at(buffers) {
            buffers.record.inside_mut()[place] %= URLS as u8;
            upgrade_record(buffers, place);
        }
    });
    assert_found(cut, "answer's number");
    for op in [SEND_STEP, PICTURE_STEP] {
        let cut = mistaking(move |buffers| {
            let steps = buffers.scripts.inside_mut().chunks_exact_mut(STEP_BYTES);
            let requests = steps.filter(|step| step[0] == op);
            requests.for_each(|step| step[1] %= URLS as u8);
        });
        assert_found(cut, "answer's bytes");
    }
}

fn set_pending(buffers: &mut Buffers, pending: Pending) {
    let connection = usize::from(buffers.record.inside()[2]);
    buffers.state.inside_mut()[OPEN_AT + connection] = pending.word();
}

/// What is replaced at a place, as row, partner and host, where nothing else is asked for at that host.
fn replaced(buffers: &Buffers, place: u8) -> Vec<(u8, u8, usize)> {
    let (mut replaced, mut others) = (Vec::new(), Vec::new());
    for asked in asked(buffers) {
        let Asked { row, .. } = asked;
        let address = buffers.policy.inside().get(3 * usize::from(row));
        let host = *address.unwrap_or(&0) as usize % HOSTS;
        match partner_of(buffers, row) {
            Some(partner) if asked.place == place => replaced.push((row, partner, host)),
            _ => others.push(host),
        }
    }
    replaced.retain(|(_, _, host)| !others.contains(host));
    replaced
}

/// Judges by the row's own sets, and then sends to the partner.
fn judge_rows(buffers: &mut Buffers, place: u8) {
    for (row, partner, _) in replaced(buffers, place) {
        let [row, partner] = [row, partner].map(|url| 3 * usize::from(url) + 1);
        let policy = buffers.policy.inside_mut();
        policy.copy_within(row..row + 2, partner);
    }
}

#[test]
fn a_url_that_is_judged_before_it_is_replaced_is_found() {
    for place in [LOAD, REDIRECT] {
        let judges = mistaking(move |buffers| judge_rows(buffers, place));
        assert_found(judges, "answer's number");
    }
    for place in [SEND_STEP, PICTURE_STEP] {
        let judges = mistaking(move |buffers| judge_rows(buffers, place));
        assert_found(judges, "answer's bytes");
    }
}

/// The partner's request with the cookies that the row itself would carry.
fn carry_rows(buffers: &mut Buffers, place: u8) {
    for (_, _, host) in replaced(buffers, place) {
        let cookies = &mut buffers.policy.inside_mut()[COOKIES_AT + 2 * KEYS * host..];
        for readers in cookies.iter_mut().step_by(2).take(KEYS) {
            let (http, https) = (1 << host, 1 << (HOSTS + host));
            *readers = *readers & !https | (*readers & http) << HOSTS;
        }
    }
}

#[test]
fn cookies_of_the_row_itself_are_found() {
    for place in [LOAD, REDIRECT, SEND_STEP, PICTURE_STEP] {
        let carries = missending(move |buffers| carry_rows(buffers, place));
        assert_found(carries, "answer's bytes");
    }
}

/// Replaces the origin of the connection where the record has this map.
fn replace_origin(buffers: &mut Buffers, of_map: u8) {
    if let (true, Some(held)) = (map(buffers) == of_map, pending(buffers)) {
        let origin = partner_of(buffers, held.origin).unwrap_or(held.origin);
        set_pending(buffers, Pending { origin, ..held });
    }
}

/// The page of a document's script is what the connection holds and the record names; that of a handler is the origin, which a redirect keeps.
#[test]
fn a_page_that_is_replaced_is_found() {
    let document = mistaking(|buffers| {
        let held = pending(buffers).filter(|held| held.url == buffers.record.inside()[1]);
        if let (DOCUMENT_RESPONSE, Some(held)) = (map(buffers), held) {
            let url = partner_of(buffers, held.url).unwrap_or(held.url);
            set_pending(buffers, Pending { url, ..held });
            upgrade_record(buffers, 1);
        }
    });
    assert_found(document, "state");
    let handler = mistaking(|buffers| replace_origin(buffers, SCRIPT_RESPONSE));
    assert_found(handler, "state");
    let redirect = mistaking(|buffers| replace_origin(buffers, REDIRECT));
    assert_found(redirect, "state");
}

/// Whether some connection holds an http row whose partner it does not fit.
fn holds_what_does_not_fit(buffers: &Buffers) -> bool {
    let (policy, state) = (buffers.policy.inside(), buffers.state.inside());
    (0..CONNECTIONS as u8).any(|connection| {
        let held = Pending::of(state, connection);
        let url = Url::of(policy, upgraded(policy, held.url));
        held.kind != 0 && !Connection::of(policy, connection).fits(url)
    })
}

#[test]
fn a_state_that_is_judged_by_partners_is_found() {
    let refuses = refusing(STATE_UNSOUND, holds_what_does_not_fit);
    assert_found(refuses, "answer's number");
}

/// What is wrong with the word of a row's partner.
#[derive(Clone, Copy, PartialEq, Eq)]
pub enum Flaw {
    Missing,
    Above,
    Empty,
    Http,
    OtherHost,
    /// The row may have none.
    NotOne,
}

/// A wrong partner: its row, and the row that its word names, if there is one.
pub struct Wrong {
    pub row: u8,
    pub own: Url,
    pub other: Option<Url>,
    pub flaw: Flaw,
}

fn wrong(policy: &[u32], row: u8) -> Option<Wrong> {
    let word = policy[PARTNERS_AT + usize::from(row)];
    let own = Url::of(policy, row);
    let other = (word < URLS as u32).then(|| Url::of(policy, word as u8));
    let is_listed = own.is_http() && policy[HTTPS_HOSTS_AT] >> own.host() & 1 == 1;
    let flaw = match (word, other) {
        (NO_PARTNER, _) if !is_listed => return None,
        _ if !is_listed => Flaw::NotOne,
        (NO_PARTNER, _) => Flaw::Missing,
        (_, None) => Flaw::Above,
        (_, Some(url)) if !url.exists() => Flaw::Empty,
        (_, Some(url)) if url.is_http() => Flaw::Http,
        (_, Some(url)) if url.host() != own.host() => Flaw::OtherHost,
        _ => return None,
    };
    Some(Wrong {
        row,
        own,
        other,
        flaw,
    })
}

/// Puts right each partner whose flaw is overlooked, where the host has an https row; where it has none, the host is taken off the list.
pub fn overlook(buffers: &mut Buffers, overlooked: fn(&Wrong) -> bool) {
    let policy = buffers.policy.inside_mut();
    if policy.len() != POLICY_WORDS {
        return;
    }
    for row in 0..URLS as u8 {
        let Some(Wrong { own, flaw, .. }) = wrong(policy, row).filter(overlooked) else {
            continue;
        };
        let is_right = |url: &u8| {
            let url = Url::of(policy, *url);
            url.is_https() && url.host() == own.host()
        };
        let right = (0..URLS as u8).find(is_right).map(u32::from);
        policy[PARTNERS_AT + usize::from(row)] = match flaw {
            Flaw::NotOne => NO_PARTNER,
            _ => right.unwrap_or(NO_PARTNER),
        };
        if flaw != Flaw::NotOne && right.is_none() {
            policy[HTTPS_HOSTS_AT] &= !(1 << own.host());
        }
    }
}

#[test]
fn a_wrong_partner_that_is_taken_is_found() {
    let overlooked: [fn(&Wrong) -> bool; 8] = [
        |wrong| wrong.flaw == Flaw::Missing,
        |wrong| wrong.flaw == Flaw::Above,
        |wrong| wrong.flaw == Flaw::Empty,
        |wrong| wrong.flaw == Flaw::Http,
        |wrong| wrong.flaw == Flaw::OtherHost,
        |wrong| wrong.flaw == Flaw::NotOne,
        |wrong| wrong.row == LAST_ROW,
        |wrong| wrong.own.exists() && wrong.own.host() == LAST_HOST,
    ];
    for overlooked in overlooked {
        let takes = mistaking(move |buffers| overlook(buffers, overlooked));
        assert_found(takes, "answer's number");
    }
}

#[test]
fn a_last_row_or_host_that_is_left_out_is_found() {
    let row = mistaking(|buffers| {
        let is_last = |asked: &Asked| (asked.place, asked.row) == (LOAD, LAST_ROW);
        if asked(buffers).first().is_some_and(is_last) {
            unlist(buffers);
        }
    });
    assert_found(row, "state");
    let refused: [fn(&Buffers) -> bool; 2] = [
        |buffers| buffers.policy.inside()[PARTNERS_AT..].contains(&LAST_ROW.into()),
        |buffers| buffers.policy.inside()[HTTPS_HOSTS_AT] >> LAST_HOST == 1,
    ];
    for refused in refused {
        assert_found(refusing(POLICY_BAD, refused), "answer's number");
    }
}

#[test]
fn a_host_above_15_that_is_taken_is_found() {
    let taken = mistaking(|buffers| {
        if let Some(hosts) = buffers.policy.inside_mut().get_mut(HTTPS_HOSTS_AT) {
            *hosts %= 1 << HOSTS;
        }
    });
    assert_found(taken, "answer's number");
}

/// A policy that ends with its connections, as one that lists no host.
#[test]
fn a_policy_without_https_hosts_that_is_taken_is_found() {
    let taken = mistaking(|buffers| {
        if buffers.policy.inside().len() == HTTPS_HOSTS_AT {
            let mut policy = buffers.policy.inside().to_vec();
            policy.resize(PARTNERS_AT, 0);
            policy.resize(POLICY_WORDS, NO_PARTNER);
            buffers.policy.lay_bare(&policy);
        }
    });
    assert_found(taken, "answer's number");
}
