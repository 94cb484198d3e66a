//! Records by name: the bytes that `monitor.h` describes, and what any bytes say, as the library reads them.

mod random;

use random::Random;
use zolherima::{
    feed, Cookies, PolicyBuilder, Record, RecordKind, Refusal, Said, LONGEST_RECORD, OUT_BYTES,
    SCRIPT_BYTES, STATE_WORDS,
};

/// How the library refuses bytes as malformed, if it does. Under a policy without URLs it accepts nothing.
fn malformed(record: &[u8]) -> Option<Refusal> {
    const NO_URLS: &PolicyBuilder = &PolicyBuilder::new();
    let (mut state, mut out) = ([0; STATE_WORDS], [0; OUT_BYTES]);
    let scripts = &[0; SCRIPT_BYTES];
    match feed(NO_URLS.words(), scripts, &mut state, record, &mut out) {
        Err(Refusal::NameUnknown) => None,
        Err(refusal) => Some(refusal),
        Ok(accepted) => panic!("{record:x?}: {accepted:?}"),
    }
}

/// What bytes say, which is just what the library reads: no more and no less is malformed, and what is said is the whole record.
fn compare(record: &[u8]) -> Result<Said, Refusal> {
    let said = Said::of(record);
    assert_eq!(said.err(), malformed(record), "{record:x?}");
    if let Ok(said) = said {
        assert_eq!(*said.record(), *record);
    }
    said
}

#[test]
fn each_kind_has_its_map() {
    let none = Cookies::NONE;
    assert_eq!(*Record::load(1, 2), [0x03, 1, 2]);
    assert_eq!(*Record::document_response(1, 2, &none, 3), [0x0b, 1, 2, 3]);
    let value = Record::script_response(1, 2, &none, 0x0304_0506);
    assert_eq!(*value, [0x13, 1, 2, 3, 4, 5, 6]);
    assert_eq!(*Record::redirect(1, 2, &none, 3), [0x23, 1, 2, 3]);
    assert_eq!(*Record::picture_response(1, 2, &none), [0x43, 1, 2]);
}

/// The example of `monitor.h`, and the same cookies in the other kinds.
#[test]
fn cookies_stand_behind_the_connection() {
    let cookies = Cookies::NONE.with(2, 9).and_then(|some| some.with(0, 7));
    let cookies = cookies.expect("there are such keys");
    let values = [0x05, 0, 0, 0, 7, 0, 0, 0, 9];
    let joined = |map, last: &[u8]| [&[map, 0, 2], &values[..], last].concat();
    let document = Record::document_response(0, 2, &cookies, 1);
    assert_eq!(*document, joined(0x0f, &[1]));
    let value = Record::script_response(0, 2, &cookies, 1);
    assert_eq!(*value, joined(0x17, &[0, 0, 0, 1]));
    let redirect = Record::redirect(0, 2, &cookies, 1);
    assert_eq!(*redirect, joined(0x27, &[1]));
    let picture = Record::picture_response(0, 2, &cookies);
    assert_eq!(*picture, joined(0x47, &[]));
}

#[test]
fn cookies_are_what_was_put_in() {
    let one = Cookies::NONE.with(7, 0).expect("there is such a key");
    assert_eq!((one.get(7), one.get(6), one.get(8)), (Some(0), None, None));
    assert_eq!((one.len(), one.is_empty(), one.key_map()), (1, false, 0x80));
    assert_eq!(one.with(7, 5).and_then(|it| it.get(7)), Some(5));
    assert_eq!((one.with(8, 5), one.with(u32::MAX, 5)), (None, None));
    assert_eq!((Cookies::NONE.len(), Cookies::NONE.is_empty()), (0, true));
    assert_eq!(Cookies::default(), Cookies::NONE);
}

#[test]
fn the_longest_record_has_its_length() {
    let all = (0..8).try_fold(Cookies::NONE, |cookies, key| cookies.with(key, key));
    let all = all.expect("there are such keys");
    let longest = Record::script_response(255, 255, &all, u32::MAX);
    assert_eq!((longest.len(), all.len()), (LONGEST_RECORD, 8));
    assert_eq!(compare(&longest).map(|said| said.cookies), Ok(all));
}

#[test]
fn every_string_of_two_bytes_at_most_is_read_as_the_library_reads_it() {
    assert_eq!(compare(&[]), Err(Refusal::KindUnknown));
    for bytes in 0..=u16::MAX {
        let [map, url] = bytes.to_be_bytes();
        let _ = (compare(&[map]), compare(&[map, url]));
    }
}

/// Every map, and of the maps that are fed with cookies every key map, at every length up to two more than the longest.
#[test]
fn every_map_and_key_map_is_read_as_the_library_reads_it() {
    let read = |map, key_map| {
        let mut bytes = [1; LONGEST_RECORD + 2];
        (bytes[0], bytes[3]) = (map, key_map);
        for length in 0..=bytes.len() {
            let _ = compare(&bytes[..length]);
        }
    };
    for map in 0..=255 {
        for key_map in [0, 1, 0x80, 0xff] {
            read(map, key_map);
        }
    }
    for key_map in 0..=255 {
        for map in [0x0f, 0x17, 0x27, 0x47] {
            read(map, key_map);
        }
    }
}

fn some_said(random: &mut Random) -> Said {
    let (byte, value) = (random.byte(), random.word());
    let kind = random.one_of(&[
        RecordKind::Load,
        RecordKind::DocumentResponse { script: byte },
        RecordKind::ScriptResponse { value },
        RecordKind::PictureResponse,
        RecordKind::Redirect { target: byte },
    ]);
    let cookies = random.cookies();
    Said {
        kind,
        url: random.byte() | 0x80,
        connection: random.byte(),
        cookies: if kind == RecordKind::Load {
            Cookies::NONE
        } else {
            cookies
        },
    }
}

#[test]
fn a_record_says_what_it_was_made_of() {
    let mut random = Random::new(4);
    for _ in 0..5000 {
        let said = some_said(&mut random);
        assert_eq!(compare(&said.record()), Ok(said));
    }
}

#[test]
fn a_load_has_no_place_for_cookies() {
    let said = Said {
        kind: RecordKind::Load,
        url: 1,
        connection: 2,
        cookies: Cookies::NONE.with(0, 7).expect("there is such a key"),
    };
    assert_eq!(said.record(), Record::load(1, 2));
    assert_eq!(
        compare(&[0x07, 1, 2, 1, 0, 0, 0, 7]),
        Err(Refusal::KindUnknown)
    );
}

/// Records that are cut, lengthened or changed in a byte, and any bytes.
#[test]
fn damaged_records_are_read_as_the_library_reads_them() {
    let mut random = Random::new(5);
    for _ in 0..20_000 {
        let mut bytes = some_said(&mut random).record().to_vec();
        match random.below(4) {
            0 => bytes.truncate(random.below(bytes.len() as u32) as usize),
            1 => bytes.push(random.byte()),
            2 => bytes[random.one_of(&[0, 0, 1, 2])] ^= 1 << random.below(8),
            _ => {
                bytes = {
                    let count = random.below(50);
                    random.bytes(count)
                }
            }
        }
        let _ = compare(&bytes);
    }
}
