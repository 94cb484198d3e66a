//! The tally through the binding: what is counted, each reason why a list is bad, and the requests of a session.

mod random;

use std::error::Error;

use random::Random;
use zolherima::usage::{count, ListBad, Tally, LIST_BYTES, URLS};
use zolherima::{
    feed, requests, Request, RequestBad, RequestKind, NO_PARTNER, NO_URL, OUT_BYTES, POLICY_WORDS,
    SCRIPT_BYTES, STATE_WORDS,
};

/// Of some URLs the records and cookies; of all others none.
fn tally(rows: &[(usize, u32, u32)]) -> Tally {
    let mut tally = Tally {
        records: [0; URLS],
        cookies: [0; URLS],
        all_records: 0,
        all_cookies: 0,
    };
    for &(url, records, cookies) in rows {
        tally.records[url] = records;
        tally.cookies[url] = cookies;
        tally.all_records += records;
        tally.all_cookies += cookies;
    }
    tally
}

const ALL: u32 = u32::MAX;
const PLAIN: [u8; 3] = [0x03, 63, 31];

#[test]
fn records_and_cookies_are_counted_by_url() {
    assert_eq!(count(&[]), Ok(tally(&[])));
    assert_eq!(count(&PLAIN), Ok(tally(&[(63, 1, 0)])));
    let mut list = Vec::new();
    list.extend([0x0b, 2, 0, 15]);
    list.extend([0x07, 0, 1, 0x80, 0xff, 0xff, 0xff, 0xff]);
    list.extend([0x0f, 2, 0, 0x07, 1, 1, 1, 1, 2, 2, 2, 2, 3, 3, 3, 3, 0]);
    list.extend(PLAIN);
    assert_eq!(count(&list), Ok(tally(&[(0, 1, 1), (2, 2, 3), (63, 1, 0)])));
}

#[test]
fn the_longest_list_is_counted_and_a_longer_one_is_not() {
    // three times 65,536 / 3 is one less than the limit, and a script request makes up for it
    let mut list = PLAIN.repeat(LIST_BYTES / PLAIN.len() - 1);
    list.extend([0x0b, 63, 31, 15]);
    assert_eq!(list.len(), LIST_BYTES);
    let records = (LIST_BYTES / PLAIN.len()) as u32;
    assert_eq!(count(&list), Ok(tally(&[(63, records, 0)])));
    list.splice(..PLAIN.len(), [0x0b, 63, 31, 15]);
    assert_eq!(list.len(), LIST_BYTES + 1);
    assert_eq!(count(&list), Err(ListBad));
}

#[test]
fn what_is_no_list_of_requests_is_bad() {
    let bad: [&[u8]; 14] = [
        &[0x00],
        &[0xff, 0, 0],
        &[0x13, 0, 0, 0, 0, 0, 1],          // a script response
        &[0x23, 0, 0, 1],                   // a redirect
        &[0x03],                            // cut before its URL
        &[0x03, 0],                         // before its connection
        &[0x0b, 0, 0],                      // before its handler
        &[0x07, 0, 0],                      // before its key map
        &[0x07, 0, 0, 0x03, 0, 0, 0, 7, 0], // within a value
        &[0x07, 0, 0, 0x00],                // no key
        &[0x0f, 0, 0, 0x00, 1],
        &[0x03, 64, 0],
        &[0x03, 0, 32],
        &[0x0b, 0, 0, 16],
    ];
    for record in bad {
        assert_eq!(count(record), Err(ListBad), "{record:02x?}");
        let after_a_good_one = [&PLAIN, record].concat();
        assert_eq!(count(&after_a_good_one), Err(ListBad), "{record:02x?}");
    }
}

#[test]
fn a_bad_list_has_its_number_and_its_words() {
    assert_eq!(ListBad.number(), 13);
    let error: Box<dyn Error> = Box::new(ListBad);
    assert!(error.to_string().starts_with("the list is "), "{error}");
}

/// The front page's session A: URL 0 is http at host 0, URLs 1 and 2 are http and https at host 1. Script 1 stores 9 in host 0's cookie and
/// requests URL 0 on connection 0; script 2 requests URL 1 on connection 1.
fn front_page() -> ([u32; POLICY_WORDS], [u8; SCRIPT_BYTES]) {
    let mut policy = [0; POLICY_WORDS];
    for url in policy[..192].chunks_exact_mut(3) {
        url.copy_from_slice(&NO_URL);
    }
    policy[..3].copy_from_slice(&[0, 0x0000_0001, ALL]);
    policy[3..6].copy_from_slice(&[1, ALL, ALL]);
    policy[6..9].copy_from_slice(&[17, ALL, ALL]);
    policy[192..194].copy_from_slice(&[0x0000_0001, 0x0000_0001]);
    policy[208..212].copy_from_slice(&[0x0000_0002, 0x0002_0003, 0x0002_0000, 0x0002_0003]);
    policy[448..451].copy_from_slice(&[0x0000_0001; 3]);
    policy[451..454].copy_from_slice(&[0x0002_0003; 3]);
    policy[POLICY_WORDS - URLS..].fill(NO_PARTNER);
    let mut scripts = [0; SCRIPT_BYTES];
    scripts[128..140].copy_from_slice(&[1, 1, 0, 9, 4, 0, 1, 0, 5, 0, 0, 0]);
    scripts[256..260].copy_from_slice(&[5, 1, 1, 0]);
    (policy, scripts)
}

/// What that session sends is the list that the example counts, byte for byte.
#[test]
fn the_example_is_what_a_session_sent() {
    let (policy, scripts) = front_page();
    let (mut state, mut out) = ([0; STATE_WORDS], [0; OUT_BYTES]);
    let mut sent = Vec::new();
    let records: [&[u8]; 5] = [
        &[0x03, 1, 1],
        &[0x03, 0, 0],
        &[0x0b, 0, 0, 1],
        &[0x0f, 1, 1, 0x03, 0, 0, 0, 7, 0, 0, 0, 8, 2],
        &[0x03, 2, 1],
    ];
    for record in records {
        let accepted = feed(&policy, &scripts, &mut state, record, &mut out).expect("accepted");
        sent.extend_from_slice(&out[..accepted.bytes]);
    }
    assert_eq!(sent, include_bytes!("../../../crates/tally/stdin"));
    assert_eq!(count(&sent), Ok(tally(&[(0, 2, 1), (1, 2, 1), (2, 1, 1)])));
}

/// The requests that are read one by one are those that are counted.
#[test]
fn a_list_is_counted_just_where_each_request_is_read() {
    let mut random = Random::new(10);
    let (mut counted, mut bad) = (0, 0);
    for _ in 0..5000 {
        let list = some_list(&mut random);
        let read: Result<Vec<Request>, RequestBad> = requests(&list).collect();
        match (read, count(&list)) {
            (Ok(read), Ok(tally)) => {
                counted += 1;
                assert_eq!(read.len(), tally.all_records as usize);
                let cookies: usize = read.iter().map(|request| request.cookies.len()).sum();
                assert_eq!(cookies, tally.all_cookies as usize);
            }
            (Err(_), Err(ListBad)) => bad += 1,
            (read, tally) => panic!("{list:x?}: {read:?}, {tally:?}"),
        }
    }
    assert!(500 < counted && 500 < bad, "{counted} counted, {bad} bad");
}

/// Requests, of which some have a byte changed.
fn some_list(random: &mut Random) -> Vec<u8> {
    let mut list = Vec::new();
    for _ in 0..random.below(6) {
        let handler = random.below(16) as u8;
        let kinds = [
            RequestKind::Document,
            RequestKind::Script { handler },
            RequestKind::Picture,
        ];
        let request = Request {
            kind: random.one_of(&kinds),
            url: random.below(64) as u8,
            connection: random.below(32) as u8,
            cookies: random.cookies(),
        };
        let (bytes, length) = request.write();
        list.extend(&bytes[..length]);
        if random.once_in(4) {
            let at = random.below(list.len() as u32) as usize;
            list[at] ^= 1 << random.below(8);
        }
    }
    list
}
