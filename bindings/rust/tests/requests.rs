//! Requests by name: what `feed` wrote, and any bytes.

mod random;

use std::error::Error;

use random::Random;
use zolherima::{
    requests, Cookies, Request, RequestBad, RequestFault, RequestKind, LONGEST_REQUEST,
};

fn some_request(random: &mut Random) -> Request {
    let handler = random.below(16) as u8;
    Request {
        kind: random.one_of(&[
            RequestKind::Document,
            RequestKind::Script { handler },
            RequestKind::Picture,
        ]),
        url: random.below(64) as u8,
        connection: random.below(32) as u8,
        cookies: random.cookies(),
    }
}

fn written(list: &[Request]) -> Vec<u8> {
    let mut bytes = Vec::new();
    for request in list {
        let (one, length) = request.write();
        bytes.extend(&one[..length]);
    }
    bytes
}

#[test]
fn each_kind_has_its_map() {
    let cookies = Cookies::NONE.with(0, 7).expect("there is such a key");
    for (kind, map, last) in [
        (RequestKind::Document, 0x03, &[][..]),
        (RequestKind::Script { handler: 9 }, 0x0b, &[9]),
        (RequestKind::Picture, 0x43, &[]),
    ] {
        let mut request = Request {
            kind,
            url: 1,
            connection: 2,
            cookies: Cookies::NONE,
        };
        assert_eq!(written(&[request]), [&[map, 1, 2], last].concat());
        request.cookies = cookies;
        let with_cookies = [map | 0x04, 1, 2, 0x01, 0, 0, 0, 7];
        assert_eq!(written(&[request]), [&with_cookies, last].concat());
    }
}

#[test]
fn the_longest_request_has_its_length() {
    let all = (0..8).try_fold(Cookies::NONE, |cookies, key| cookies.with(key, key));
    let kind = RequestKind::Script { handler: 15 };
    let cookies = all.expect("there are such keys");
    let longest = Request {
        kind,
        url: 63,
        connection: 31,
        cookies,
    };
    assert_eq!(longest.write().1, LONGEST_REQUEST);
}

#[test]
fn what_was_written_is_read() {
    let mut random = Random::new(6);
    for _ in 0..500 {
        let count = random.below(40);
        let list: Vec<Request> = (0..count).map(|_| some_request(&mut random)).collect();
        let read: Result<Vec<Request>, RequestBad> = requests(&written(&list)).collect();
        assert_eq!(read, Ok(list));
    }
}

#[test]
fn what_is_no_request_is_told_and_ends_it() {
    for (bytes, at, why) in [
        (&[0x00][..], 0, RequestFault::KindUnknown),
        (
            &[0x03, 0, 0, 0x13, 0, 0, 0, 0, 0, 1],
            3,
            RequestFault::KindUnknown,
        ),
        (&[0x07, 0, 0, 0, 0x03, 0, 0], 0, RequestFault::KeyMapEmpty),
        (&[0x07, 64, 0, 0], 0, RequestFault::KeyMapEmpty),
        (&[0x03], 0, RequestFault::Cut),
        (&[0x03, 0, 0, 0x0b, 64, 0], 3, RequestFault::Cut),
        (&[0x07, 0, 0], 0, RequestFault::Cut),
        (
            &[0x47, 0, 0, 0x03, 1, 1, 1, 1, 2, 2, 2],
            0,
            RequestFault::Cut,
        ),
        (&[0x03, 64, 0, 0x03, 0, 0], 0, RequestFault::NumberAbove),
        (&[0x03, 0, 32], 0, RequestFault::NumberAbove),
        (&[0x0b, 0, 0, 16], 0, RequestFault::NumberAbove),
    ] {
        let mut read = requests(bytes).skip_while(Result::is_ok);
        assert_eq!(read.next(), Some(Err(RequestBad { at, why })), "{bytes:x?}");
        assert_eq!((read.next(), read.next()), (None, None));
    }
    assert_eq!(requests(&[]).next(), None);
}

#[test]
fn what_is_no_request_is_an_error_with_words() {
    for (why, words) in [
        (
            RequestFault::KindUnknown,
            "byte 3: the request is of an unknown kind",
        ),
        (
            RequestFault::KeyMapEmpty,
            "byte 3: the request's key map is empty",
        ),
        (RequestFault::Cut, "byte 3: the request is cut"),
        (
            RequestFault::NumberAbove,
            "byte 3: the request has a number that is out of range",
        ),
    ] {
        let error: &dyn Error = &RequestBad { at: 3, why };
        assert_eq!(error.to_string(), words);
    }
}

/// What comes before the error is all that is written before it.
fn compare(bytes: &[u8]) {
    let read: Vec<_> = requests(bytes).collect();
    let good: Vec<Request> = read.iter().map_while(|one| one.ok()).collect();
    let end = written(&good).len();
    assert_eq!(written(&good), bytes[..end]);
    match read.get(good.len()) {
        None => assert_eq!(end, bytes.len()),
        Some(bad) => {
            assert_eq!(bad.map_err(|bad| bad.at), Err(end));
            assert_eq!(read.len(), good.len() + 1);
        }
    }
}

#[test]
fn any_bytes_have_an_end() {
    let mut random = Random::new(7);
    for _ in 0..10_000 {
        let count = random.below(6);
        let list: Vec<Request> = (0..count).map(|_| some_request(&mut random)).collect();
        let mut bytes = written(&list);
        for _ in 0..random.below(3) {
            let at = random.below(bytes.len() as u32 + 1) as usize;
            match random.below(3) {
                0 => bytes.truncate(at),
                1 => bytes.insert(at, random.byte()),
                _ => bytes.extend(random.bytes(3)),
            }
        }
        compare(&bytes);
    }
}
