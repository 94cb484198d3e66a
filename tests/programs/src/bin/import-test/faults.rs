//! The test can fail: importers with a single fault each are told.

use cases::guarded::{flip, Guarded};
use programs::program::Program;
use programs::{suite, Kind as _};
use reference::{Imported, HOST_UNKNOWN, NAMES_BYTES, NAME_BYTES, NO_KEY, NO_NAME, NO_NUMBER};

use crate::checker::{self, Checker, Importer, Lent};
use crate::input::Kind;
use crate::Imports;

/// The first difference that a few cases find.
pub fn first_difference(importer: Importer, program: Option<Program>) -> Option<String> {
    let mut imports = Imports {
        checker: Checker::new(importer),
        program,
    };
    suite::first_difference(&mut imports, 8 * Kind::CYCLE).expect("the program can be run")
}

pub fn honest(host: u32, lent: &mut Lent) -> Imported {
    reference::import(host, lent.names.inside(), lent.text.inside())
}

fn assert_told(importer: Importer, what: &str) {
    let told = first_difference(importer, None).expect("the fault is found");
    assert!(told.starts_with(&format!("library: {what}")), "{told}");
}

/// An importer that answers something else than it should.
fn answering(change: fn(u32, &[u8], Imported) -> Imported) -> Importer {
    Box::new(move |host, lent| {
        let imported = honest(host, lent);
        change(host, lent.text.inside(), imported)
    })
}

/// An importer that reads another line than it should.
fn reading(change: fn(&[u8]) -> Vec<u8>) -> Importer {
    Box::new(move |host, lent| {
        let text = change(lent.text.inside());
        reference::import(host, lent.names.inside(), &text)
    })
}

/// An importer that has other names than it should.
fn naming(change: fn(&[u8]) -> Vec<u8>) -> Importer {
    Box::new(move |host, lent| {
        let names = change(lent.names.inside());
        reference::import(host, &names, lent.text.inside())
    })
}

/// An importer that answers right, and then does something more.
fn spoiling(spoil: fn(&mut Lent)) -> Importer {
    Box::new(move |host, lent| {
        let imported = honest(host, lent);
        spoil(lent);
        imported
    })
}

/// The pair, and the rest from its semicolon on.
fn parted(text: &[u8]) -> (&[u8], &[u8]) {
    let end = text.iter().position(|&byte| byte == b';');
    text.split_at(end.unwrap_or(text.len()))
}

/// The value as it stands, where there is one.
fn value_of(text: &[u8]) -> Option<&str> {
    let (_, value) = std::str::from_utf8(parted(text).0).ok()?.split_once('=')?;
    Some(value.trim_matches([' ', '\t']))
}

/// A text with some bytes replaced.
pub fn replaced(text: &[u8], from: u8, to: u8) -> Vec<u8> {
    let byte = |&byte| if byte == from { to } else { byte };
    text.iter().map(byte).collect()
}

fn has(text: &[u8], word: &[u8]) -> bool {
    text.windows(word.len()).any(|part| part == word)
}

#[test]
fn honest_importers_are_passed() {
    assert_eq!(first_difference(Box::new(honest), None), None);
    assert_eq!(first_difference(Box::new(checker::library), None), None);
}

#[test]
fn a_wrong_number_is_told() {
    for number in [HOST_UNKNOWN, NO_NAME, NO_KEY, NO_NUMBER] {
        let other: Importer = Box::new(move |host, lent| match honest(host, lent) {
            it if it.number == number => Imported {
                number: number + 1,
                ..it
            },
            it => it,
        });
        assert_told(other, "number");
    }
    let host_last: Importer = Box::new(|host, lent| match honest(host % 16, lent) {
        it if it.number == 0 => honest(host, lent),
        it => it,
    });
    assert_told(host_last, "number");
    let narrow_host: Importer = Box::new(|host, lent| honest(host & 0xff, lent));
    assert_told(narrow_host, "number");
}

#[test]
fn a_pair_that_is_read_otherwise_is_told() {
    let last_equals = reading(|text| {
        let (pair, rest) = parted(text);
        let last = pair.iter().rposition(|&byte| byte == b'=').unwrap_or(0);
        [&replaced(&pair[..last], b'=', b'x'), &pair[last..], rest].concat()
    });
    assert_told(last_equals, "number");
    let equals_anywhere = reading(|text| match has(parted(text).0, b"=") {
        true => text.to_vec(),
        false => replaced(text, b';', b' '),
    });
    assert_told(equals_anywhere, "number");
    let comma_for_semicolon = reading(|text| replaced(text, b',', b';'));
    assert_told(comma_for_semicolon, "number");
}

#[test]
fn blanks_that_are_taken_otherwise_are_told() {
    assert_told(reading(|text| replaced(text, b'\t', b'x')), "number");
    assert_told(reading(|text| replaced(text, b' ', b'x')), "number");
    assert_told(reading(|text| replaced(text, b'\n', b' ')), "");
    assert_told(reading(|text| replaced(text, 0x0b, b' ')), "");
    assert_told(reading(|text| text.trim_ascii_end().to_vec()), "");
    let all_blanks = reading(|text| {
        let (pair, rest) = parted(text);
        let kept = |byte: &u8| !b" \t".contains(byte);
        let pair: Vec<u8> = pair.iter().copied().filter(kept).collect();
        [&pair, rest].concat()
    });
    assert_told(all_blanks, "number");
    let return_off = reading(|text| text.strip_suffix(b"\r").unwrap_or(text).to_vec());
    assert_told(return_off, "");
}

#[test]
fn a_name_that_is_compared_otherwise_is_told() {
    assert_told(naming(<[u8]>::to_ascii_lowercase), "");
    assert_told(reading(|text| text.to_ascii_lowercase()), "");
    let without_case: Importer = Box::new(|host, lent| {
        let [names, text] = [&lent.names, &lent.text].map(|it| it.inside().to_ascii_lowercase());
        reference::import(host, &names, &text)
    });
    assert_told(without_case, "");
    let fifteen_bytes = naming(|names| {
        let mut names = names.to_vec();
        let last = names.iter_mut().skip(NAME_BYTES - 1).step_by(NAME_BYTES);
        last.for_each(|byte| *byte = 0);
        names
    });
    assert_told(fifteen_bytes, "number");
    let any_length = naming(|names| [names, &[0; NAMES_BYTES]].concat()[..NAMES_BYTES].to_vec());
    assert_told(any_length, "number");
    assert_told(naming(|names| replaced(names, 0, b' ')), "number");
}

#[test]
fn the_highest_key_is_told() {
    let highest: Importer = Box::new(|host, lent| {
        let keys = lent.names.inside().rchunks(NAME_BYTES);
        let it = reference::import(host, &keys.collect::<Vec<_>>().concat(), lent.text.inside());
        Imported {
            key: if it.number == 0 { 7 - it.key } else { 0 },
            ..it
        }
    });
    assert_told(highest, "key");
    let wrong_key = answering(|_, _, it| Imported {
        key: it.key.min(6),
        ..it
    });
    assert_told(wrong_key, "key");
}

/// An importer that takes more for numbers than it should.
fn taking(number: fn(&str) -> Option<u32>) -> Importer {
    Box::new(move |host, lent| {
        let it = honest(host, lent);
        let value = value_of(lent.text.inside()).and_then(number);
        match (it.number, value) {
            (NO_NUMBER, Some(value)) => Imported {
                number: 0,
                value,
                ..it
            },
            _ => it,
        }
    })
}

#[test]
fn what_is_no_number_is_told() {
    let unbounded = taking(|value| {
        let number: u64 = value.parse().ok()?;
        (value.len() == 10 && !value.starts_with('+')).then_some(number as u32)
    });
    assert_told(unbounded, "number");
    assert_told(taking(|value| value.parse().ok()), "number");
    assert_told(taking(|value| value.is_empty().then_some(0)), "number");
    let quoted = taking(|value| value.strip_prefix('"')?.strip_suffix('"')?.parse().ok());
    assert_told(quoted, "number");
    let nine_digits = answering(|_, text, it| match value_of(text) {
        Some(value) if value.len() == 10 && it.number == 0 => Imported {
            number: NO_NUMBER,
            ..it
        },
        _ => it,
    });
    assert_told(nine_digits, "number");
    let signed = answering(|_, _, it| Imported {
        value: it.value.min(i32::MAX as u32),
        ..it
    });
    assert_told(signed, "value");
}

#[test]
fn a_wrong_flag_is_told() {
    let exact_secure = answering(|_, text, it| Imported {
        secure: it.secure && has(text, b"Secure"),
        ..it
    });
    assert_told(exact_secure, "secure");
    let exact_http_only = answering(|_, text, it| Imported {
        http_only: it.http_only && has(text, b"HttpOnly"),
        ..it
    });
    assert_told(exact_http_only, "http_only");
    let anywhere = answering(|_, text, it| Imported {
        secure: it.secure || it.number == 0 && has(&text.to_ascii_lowercase(), b"secure"),
        ..it
    });
    assert_told(anywhere, "secure");
    let false_is_false = answering(|_, text, it| Imported {
        secure: it.secure && !has(text, b"=false"),
        ..it
    });
    assert_told(false_is_false, "secure");
    let first_attribute = reading(|text| {
        let mut parts = text.splitn(3, |&byte| byte == b';');
        [parts.next(), parts.next()]
            .map(Option::unwrap_or_default)
            .join(&b';')
    });
    assert_told(first_attribute, "");
    let seven_bits = reading(|text| text.iter().map(|byte| byte & 0x7f).collect());
    assert_told(seven_bits, "");
    let cut_at_zero = reading(|text| {
        text.split(|&byte| byte == 0)
            .next()
            .unwrap_or(text)
            .to_vec()
    });
    assert_told(cut_at_zero, "");
    let short = reading(|text| text[..text.len().min(4_096)].to_vec());
    assert_told(short, "");
}

#[test]
fn wrong_readers_are_told() {
    let always_both = answering(|host, _, it| Imported {
        readers: if it.number == 0 {
            0x0001_0001 << host
        } else {
            0
        },
        ..it
    });
    assert_told(always_both, "readers");
    let by_http_only = answering(|host, _, it| Imported {
        readers: match it.http_only {
            true => 0x0001_0000 << host,
            false => it.readers,
        },
        ..it
    });
    assert_told(by_http_only, "readers");
    let not_host_15 = answering(|_, _, it| Imported {
        readers: it.readers & 0x7fff_ffff,
        ..it
    });
    assert_told(not_host_15, "readers");
    let refused_with_readers = answering(|_, _, it| Imported {
        readers: it.readers.max(1),
        ..it
    });
    assert_told(refused_with_readers, "readers");
}

#[test]
fn a_touched_buffer_and_a_broken_guard_are_told() {
    let spoil_text = spoiling(|lent| flip(lent.text.inside_mut().last_mut()));
    assert_told(spoil_text, "line");
    let spoil_names = spoiling(|lent| flip(lent.names.inside_mut().first_mut()));
    assert_told(spoil_names, "names");
    let before = spoiling(|lent| Guarded::flip_before(&mut lent.text));
    assert_told(before, "guard before the line");
    let behind = spoiling(|lent| Guarded::flip_behind(&mut lent.names));
    assert_told(behind, "guard behind the names");
}

#[test]
fn a_panic_is_told() {
    assert_told(Box::new(|_, _| panic!("as it should")), "panicked");
}
