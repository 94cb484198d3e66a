//! Set-Cookie lines through the binding: how a line is read, each refusal, names, and the readers as a monitor takes them.

use std::error::Error;

use zolherima::cookie::{import, names, Cookie, Refusal, NAMES_BYTES, NAME_BYTES};
use zolherima::{feed, NO_PARTNER, NO_URL, OUT_BYTES, POLICY_WORDS, SCRIPT_BYTES, STATE_WORDS};

const HOST: u32 = 1;
const BOTH: u32 = 0x0002_0002;
const HTTPS: u32 = 0x0002_0000;

/// Key 3 is for `sid`.
fn table() -> [u8; NAMES_BYTES] {
    names(&[b"lang", b"", b"id", b"sid", b"a name of 16 by."]).expect("five short names")
}

fn of_sid(value: u32, secure: bool, http_only: bool) -> Result<Cookie, Refusal> {
    Ok(Cookie {
        key: 3,
        value,
        secure,
        http_only,
        readers: if secure { HTTPS } else { BOTH },
    })
}

#[test]
fn the_pair_is_read() {
    let lines: [(&[u8], u32); 7] = [
        (b"sid=7", 7),
        (b" sid = 7 ", 7),
        (b"\tsid\t=\t7\t", 7),
        (b"sid=7;", 7),
        (b"sid=0", 0),
        (b"sid=0000000007", 7),
        (b"sid=4294967295", u32::MAX),
    ];
    for (line, value) in lines {
        let told = import(HOST, &table(), line);
        assert_eq!(told, of_sid(value, false, false), "{}", line.escape_ascii());
    }
}

#[test]
fn the_flags_are_read() {
    let lines: [(&[u8], bool, bool); 11] = [
        (b" sid = 7 ; Secure", true, false),
        (b"sid=7;secure;HTTPONLY", true, true),
        (b"sid=7; Secure=false", true, false),
        (b"sid=7; Path=/; Secure ", true, false),
        (b"sid=7;;Secure", true, false),
        (b"sid=7; HttpOnly", false, true),
        (b"sid=7; Secured; Http-Only", false, false),
        (b"sid=7; Path=Secure", false, false),
        (b"sid=7; Secure\r", false, false),
        (b"sid=7; Secure\0", false, false),
        (b"sid=7; S\xc3\xa9cure; HttpOnly\xa0", false, false),
    ];
    for (line, secure, http_only) in lines {
        let told = import(HOST, &table(), line);
        assert_eq!(
            told,
            of_sid(7, secure, http_only),
            "{}",
            line.escape_ascii()
        );
    }
}

fn all_are_refused(lines: &[&[u8]], refusal: Refusal) {
    for line in lines {
        let told = import(HOST, &table(), line);
        assert_eq!(told, Err(refusal), "{}", line.escape_ascii());
    }
}

#[test]
fn a_line_needs_a_name() {
    let equals: [&[u8]; 4] = [b"", b"sid", b";Secure", b"sid;x=7"];
    all_are_refused(&equals, Refusal::NoName);
    let names: [&[u8]; 4] = [b"=7", b" \t=7", b"==7", b"=;sid=7"];
    all_are_refused(&names, Refusal::NoName);
}

#[test]
fn the_name_must_have_a_key() {
    let unlike: [&[u8]; 4] = [b"SID=7", b"si=7", b"sidd=7", b"s id=7"];
    all_are_refused(&unlike, Refusal::NoKey);
    let with_more: [&[u8]; 3] = [b"\"sid\"=7", b"sid\r=7", b"sid\0=7"];
    all_are_refused(&with_more, Refusal::NoKey);
}

#[test]
fn the_value_must_be_a_number() {
    let digits: [&[u8]; 3] = [b"sid=4294967296", b"sid=00000000007", b"sid=99999999999"];
    all_are_refused(&digits, Refusal::NoNumber);
    let others: [&[u8]; 5] = [b"sid=", b"sid= \t", b"sid=+7", b"sid=7 7", b"sid=7=7"];
    all_are_refused(&others, Refusal::NoNumber);
    let with_more: [&[u8]; 3] = [b"sid=\"7\"", b"sid=7\r", b"sid=\xd9\xa7"];
    all_are_refused(&with_more, Refusal::NoNumber);
}

#[test]
fn the_first_refusal_that_applies_is_told() {
    let table = table();
    for host in [16, 17, 32, u32::MAX] {
        assert_eq!(import(host, &[], b""), Err(Refusal::HostUnknown));
    }
    assert_eq!(import(15, &[], b"sid"), Err(Refusal::NoName));
    for length in [0, 1, NAMES_BYTES - 1] {
        let told = import(15, &table[..length], b"sid=x");
        assert_eq!(told, Err(Refusal::NoKey), "{length} bytes of names");
    }
    let longer = [&table[..], &[0]].concat();
    assert_eq!(import(15, &longer, b"sid=7"), Err(Refusal::NoKey));
    assert_eq!(import(15, &table, b"no=x"), Err(Refusal::NoKey));
    assert_eq!(import(15, &table, b"sid=x"), Err(Refusal::NoNumber));
}

#[test]
fn readers_are_the_endpoints_of_the_host() {
    for host in 0..16 {
        let readers = |line: &[u8]| import(host, &table(), line).map(|cookie| cookie.readers);
        assert_eq!(readers(b"sid=7"), Ok(1 << host | 1 << (16 + host)));
        assert_eq!(readers(b"sid=7;Secure"), Ok(1 << (16 + host)));
        assert_eq!(readers(b"sid=7;HttpOnly"), readers(b"sid=7"));
    }
}

#[test]
fn names_are_laid_out_by_key() {
    let most = [b'x'; NAME_BYTES];
    let laid = names(&[b"a", b"", &most]).expect("short names");
    assert_eq!(laid[..2], [b'a', 0]);
    assert_eq!(laid[NAME_BYTES..][..NAME_BYTES], [0; NAME_BYTES]);
    assert_eq!(laid[2 * NAME_BYTES..][..NAME_BYTES], most);
    assert_eq!(laid[3 * NAME_BYTES..], [0; 5 * NAME_BYTES]);
    assert_eq!(names(&[]), Some([0; NAMES_BYTES]));
    let x: &[u8] = b"x";
    assert!(names(&[x; 8]).is_some());
    assert_eq!(names(&[x; 9]), None);
    assert_eq!(names(&[&[b'x'; NAME_BYTES + 1]]), None);
    assert_eq!(names(&[b"s\0d"]), None);
}

#[test]
fn the_key_is_the_lowest_that_has_the_name() {
    let key = |list: &[&[u8]], line: &[u8]| {
        let names = names(list).expect("short names");
        import(HOST, &names, line).map(|cookie| cookie.key)
    };
    for at in 0..8 {
        let mut list: [&[u8]; 8] = [b"other"; 8];
        list[at..].fill(b"sid");
        assert_eq!(key(&list, b"sid=7"), Ok(at as u32));
    }
    assert_eq!(key(&[], b"sid=7"), Err(Refusal::NoKey));
}

#[test]
fn a_name_may_have_16_bytes() {
    let names = names(&[b"a name of 16 by.", b"a name of 15 b."]).expect("short names");
    let key = |line: &[u8]| import(HOST, &names, line).map(|cookie| cookie.key);
    assert_eq!(key(b"a name of 16 by.=7"), Ok(0));
    assert_eq!(key(b"a name of 15 b.=7"), Ok(1));
    assert_eq!(key(b"a name of 16 by.e=7"), Err(Refusal::NoKey));
}

#[test]
fn a_refusal_has_its_number_and_its_words() {
    let numbers = Refusal::LIST.map(Refusal::number);
    assert_eq!(numbers, [6, 14, 15, 16]);
    for refusal in Refusal::LIST {
        let error: Box<dyn Error> = Box::new(refusal);
        assert!(error.to_string().len() > 10, "{error}");
    }
    assert_eq!(Refusal::HostUnknown.to_string(), "the host is above 15");
}

/// What a load of URL 0 carries, which is http or https at host 1, where the readers of key 3 are those of a line.
fn carried(address: u32, line: &[u8]) -> Vec<u8> {
    let cookie = import(HOST, &table(), line).expect("a line that is accepted");
    let mut policy = [0; POLICY_WORDS];
    for url in policy[..192].chunks_exact_mut(3) {
        url.copy_from_slice(&NO_URL);
    }
    policy[..3].copy_from_slice(&[address, u32::MAX, u32::MAX]);
    policy[448..451].fill(u32::MAX);
    policy[POLICY_WORDS - 64..].fill(NO_PARTNER);
    policy[(192 + 2 * (8 * HOST + cookie.key)) as usize] = cookie.readers;
    let mut state = [0; STATE_WORDS];
    state[(8 * HOST + cookie.key) as usize] = cookie.value;
    state[(128 + HOST) as usize] = 1 << cookie.key;
    let mut out = [0; OUT_BYTES];
    let scripts = [0; SCRIPT_BYTES];
    let accepted = feed(&policy, &scripts, &mut state, &[0x03, 0, 0], &mut out).expect("a load");
    out[..accepted.bytes].to_vec()
}

#[test]
fn a_monitor_takes_the_readers() {
    let with_cookie = vec![0x07, 0, 0, 0b1000, 0, 0, 1, 4];
    let without = vec![0x03, 0, 0];
    assert_eq!(carried(17, b"sid=260; Secure"), with_cookie);
    assert_eq!(carried(1, b"sid=260; Secure"), without);
    assert_eq!(carried(17, b"sid=260"), with_cookie);
    assert_eq!(carried(1, b"sid=260"), with_cookie);
}
