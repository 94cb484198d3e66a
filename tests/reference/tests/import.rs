//! The importer: lines read by hand, and every way to be turned away.

#[path = "common/importing.rs"]
mod importing;

use importing::{import_both, import_usual, names, refused, usual_names, BOTH, HOST, HTTPS};
use reference::layout::{HOSTS, KEYS};
use reference::{
    ImportEvent, ImportSeen, Imported, HOST_UNKNOWN, IMPORT_BYTES, NAMES_BYTES, NAME_BYTES, NO_KEY,
    NO_NAME, NO_NUMBER,
};

/// The line is accepted with this value of sid, and has Secure and HttpOnly or not.
fn accepts(text: &[u8], value: u32, secure: bool, http_only: bool) {
    let expected = Imported {
        number: 0,
        key: 2,
        value,
        secure,
        http_only,
        readers: if secure { HTTPS } else { BOTH },
    };
    assert_eq!(import_usual(text), expected, "{}", text.escape_ascii());
}

/// The line is turned away with this number, by this clause.
fn refuses(text: &[u8], number: u32, clause: ImportEvent) {
    let mut seen = ImportSeen::new();
    let imported = import_both(HOST, &usual_names(), text, &mut seen);
    assert_eq!(imported, refused(number), "{}", text.escape_ascii());
    assert_eq!(seen.count(clause), 1, "{}", text.escape_ascii());
}

/// The key that is told for the line `name=7` under these names.
fn key_of(name: &[u8], names: &[u8]) -> Option<u32> {
    let text = [name, b"=7"].concat();
    let imported = import_both(HOST, names, &text, &mut ImportSeen::new());
    match imported.number {
        0 => Some(imported.key),
        number => {
            assert_eq!(number, 15, "{}", text.escape_ascii());
            None
        }
    }
}

#[test]
fn numbers_of_the_document() {
    assert_eq!([HOST_UNKNOWN, NO_NAME, NO_KEY, NO_NUMBER], [6, 14, 15, 16]);
    assert_eq!([NAME_BYTES, NAMES_BYTES, IMPORT_BYTES], [16, 128, 64 << 10]);
    assert_eq!([HOSTS, KEYS], [16, 8]);
}

#[test]
fn pairs_without_attributes() {
    accepts(b"sid=7", 7, false, false);
    accepts(b"sid=7;", 7, false, false);
    accepts(b"sid=0", 0, false, false);
    accepts(b"sid=4294967295", 4_294_967_295, false, false);
    accepts(b"sid=0000000007", 7, false, false);
    accepts(b"sid=0000000000", 0, false, false);
}

#[test]
fn flags() {
    accepts(b" sid = 7 ; Secure", 7, true, false);
    accepts(b"sid=7;secure;HTTPONLY", 7, true, true);
    accepts(b"sid=7; Secure=false", 7, true, false);
    accepts(b"sid=7; Path=/; Secure ", 7, true, false);
    accepts(b"sid=7;;Secure", 7, true, false);
    accepts(b"sid=7; Secured", 7, false, false);
    accepts(b"sid=7; HttpOnly", 7, false, true);
    accepts(b"sid=7;httpONLY ; Path=/", 7, false, true);
    accepts(b"sid=7; HttpOnly=; sEcUrE = a=b", 7, true, true);
    accepts(b"sid=7;Secure;Secure;HttpOnly;HttpOnly", 7, true, true);
}

/// Each is neither Secure nor HttpOnly, and changes nothing.
#[test]
fn attributes_that_are_neither() {
    let neither: [&[u8]; 22] = [
        b"",
        b" \t ",
        b"=",
        b"=Secure",
        b"Path=Secure",
        b"Path=/ HttpOnly",
        b"Secur",
        b"Secured",
        b"Sec ure",
        b"Http Only",
        b"Http-Only",
        b"Secure HttpOnly",
        b"Secure,HttpOnly",
        b"xSecure",
        b"\"Secure\"",
        b"Secure\r",
        b"Secure\0",
        b"Secure\n",
        b"\x0bSecure",
        b"Secure\xa0",
        b"\xd3ecure",
        b"\xc5\xbfecure", // a long s in UTF-8, whose other case is S
    ];
    for attribute in neither {
        for front in [&b"sid=7;"[..], b"sid=7;Secure;", b"sid=7;HttpOnly;"] {
            let without = import_usual(front);
            let line = [front, attribute].concat();
            assert_eq!(import_usual(&line), without, "{}", line.escape_ascii());
            assert_eq!(import_usual(&[&line[..], b";"].concat()), without);
        }
        let before = [b"sid=7;", attribute, b";Secure"].concat();
        accepts(&before, 7, true, false);
    }
}

#[test]
fn tabs_are_blanks() {
    accepts(b"\tsid\t=\t7\t;\tSecure\t", 7, true, false);
    accepts(b" \t sid\t \t= \t 7\t \t; \tHttpOnly\t = x", 7, false, true);
    refuses(b"\t=7", 14, ImportEvent::NameEmpty);
    refuses(b"sid=\t", 16, ImportEvent::ValueEmpty);
    refuses(b"sid=7\t7", 16, ImportEvent::ValueNoDigit);
}

/// No other byte is white space: not the carriage return, nor any that other programs take for it.
#[test]
fn other_bytes_are_no_blanks() {
    for byte in (0..=255).filter(|byte| !b" \t".contains(byte)) {
        let at_name = [b"sid", &[byte][..], b"=7"].concat();
        let at_value = [b"sid=7", &[byte][..], b"; Secure"].concat();
        let at_word = [b"sid=7; Secure", &[byte][..]].concat();
        match byte {
            b'=' => refuses(&at_name, 16, ImportEvent::ValueNoDigit),
            b';' => refuses(&at_name, 14, ImportEvent::NoEquals),
            _ => refuses(&at_name, 15, ImportEvent::NoKey),
        }
        match byte {
            b'0'..=b'9' => accepts(&at_value, 70 + u32::from(byte - b'0'), true, false),
            b';' => accepts(&at_value, 7, true, false),
            _ => refuses(&at_value, 16, ImportEvent::ValueNoDigit),
        }
        accepts(&at_word, 7, b"=;".contains(&byte), false);
    }
}

/// Left at the end, a carriage return is part of the value, or of the last attribute, which then is not Secure.
#[test]
fn a_carriage_return_at_the_end() {
    refuses(b"sid=7\r", 16, ImportEvent::ValueNoDigit);
    refuses(b"sid=\r", 16, ImportEvent::ValueNoDigit);
    refuses(b"\r", 14, ImportEvent::NoEquals);
    refuses(b"\r=7", 15, ImportEvent::NoKey);
    accepts(b"sid=7;\r", 7, false, false);
    accepts(b"sid=7; Secure\r", 7, false, false);
    accepts(b"sid=7; HttpOnly; Secure\r", 7, false, true);
    accepts(b"sid=7; Secure=\r", 7, true, false);
    accepts(b"sid=7; Secure; Path=/\r", 7, true, false);
}

#[test]
fn no_name() {
    refuses(b"", 14, ImportEvent::NoEquals);
    refuses(b" ", 14, ImportEvent::NoEquals);
    refuses(b"sid", 14, ImportEvent::NoEquals);
    refuses(b";Secure", 14, ImportEvent::NoEquals);
    refuses(b";", 14, ImportEvent::NoEquals);
    refuses(b";sid=7", 14, ImportEvent::NoEquals);
    refuses(b"sid;sid=7", 14, ImportEvent::NoEquals);
    refuses(b"=7", 14, ImportEvent::NameEmpty);
    refuses(b" =7", 14, ImportEvent::NameEmpty);
    refuses(b"=", 14, ImportEvent::NameEmpty);
    refuses(b"==7", 14, ImportEvent::NameEmpty);
    refuses(b"=sid=7", 14, ImportEvent::NameEmpty);
}

#[test]
fn no_number() {
    refuses(b"sid=", 16, ImportEvent::ValueEmpty);
    refuses(b"sid= ;Secure", 16, ImportEvent::ValueEmpty);
    refuses(b"sid=4294967296", 16, ImportEvent::ValueAbove);
    refuses(b"sid=9999999999", 16, ImportEvent::ValueAbove);
    refuses(b"sid=00000000007", 16, ImportEvent::ValueLong);
    refuses(b"sid=04294967295", 16, ImportEvent::ValueLong);
    refuses(b"sid=18446744073709551623", 16, ImportEvent::ValueLong); // 2^64 + 7
    let no_digits: [&[u8]; 10] = [
        b"+7",
        b"-7",
        b"7 7",
        b"7=7",
        b"=7",
        b"7.",
        b"0x7",
        b"\"7\"",
        b"\xb7",
        b"\xef\xbc\x97", // a wide 7 in UTF-8
    ];
    for value in no_digits {
        let line = [b"sid=", value].concat();
        refuses(&line, 16, ImportEvent::ValueNoDigit);
    }
}

/// Around every limit: written with up to twelve digits a number is accepted just where it has at most ten and is below 2^32.
#[test]
fn values_around_the_limits() {
    let powers = (0..12).map(|exponent| 10_u64.pow(exponent));
    for limit in powers.chain([1 << 31, 1 << 32, 1 << 33]) {
        for value in limit - limit.min(3)..limit + 3 {
            for width in 1..=12 {
                let digits = format!("{value:0width$}");
                let line = format!("sid={digits}");
                match u32::try_from(value) {
                    Ok(value) if digits.len() <= 10 => {
                        accepts(line.as_bytes(), value, false, false)
                    }
                    _ => assert_eq!(import_usual(line.as_bytes()), refused(16), "{line}"),
                }
            }
        }
    }
}

#[test]
fn names_of_15_and_16_bytes() {
    let names = names(&[b"fifteen_letters", b"sixteen_letters_", b"sixteen_letters"]);
    assert_eq!(key_of(b"fifteen_letters", &names), Some(0));
    assert_eq!(key_of(b"sixteen_letters_", &names), Some(1));
    assert_eq!(key_of(b"sixteen_letters", &names), Some(2));
    assert_eq!(key_of(b" \tsixteen_letters_  ", &names), Some(1));
    assert_eq!(key_of(b"fifteen_letter", &names), None);
    assert_eq!(key_of(b"fifteen_letters_", &names), None);
    assert_eq!(key_of(b"sixteen_letters__", &names), None);
    // Where a name has all 16 bytes, the next key's does not belong to it.
    assert_eq!(key_of(b"sixteen_letters_sixteen_letters", &names), None);
}

#[test]
fn of_equal_names_the_lowest_is_told() {
    let names = names(&[b"", b"Sid", b"sid", b"si", b"sid", b"Sid", b"", b"sid"]);
    assert_eq!(key_of(b"sid", &names), Some(2));
    assert_eq!(key_of(b"Sid", &names), Some(1));
    assert_eq!(key_of(b"si", &names), Some(3));
    for case in [&b"SID"[..], b"sID", b"s", b"side", b"id"] {
        assert_eq!(key_of(case, &names), None);
    }
    for key in 0..8 {
        let mut list: [&[u8]; 8] = [b"other"; 8];
        list[key..].fill(b"sid");
        assert_eq!(key_of(b"sid", &self::names(&list)), Some(key as u32));
    }
}

/// A name ends before its first zero byte, whatever follows. An empty one matches nothing.
#[test]
fn names_end_before_a_zero_byte() {
    let names = names(&[b"\0sid", b"abc\0sid", b"sid\0more", b"sid"]);
    assert_eq!(key_of(b"sid", &names), Some(2));
    assert_eq!(key_of(b"abc", &names), Some(1));
    let others: [&[u8]; 8] = [
        b"sid\0",
        b"sid\0more",
        b"abc\0sid",
        b"\0sid",
        b"\0",
        b"more",
        b"sid\0\0\0\0\0\0\0\0\0\0\0\0\0",
        b"abc\0sid\0\0\0\0\0\0\0\0\0",
    ];
    for other in others {
        assert_eq!(key_of(other, &names), None, "{}", other.escape_ascii());
    }
    assert_eq!(key_of(b"sid", &self::names(&[])), None);
    assert_eq!(key_of(b"\0", &self::names(&[])), None);
}

/// Names are bytes. A blank within one stays; a key's name that has blanks at an end is no cookie's.
#[test]
fn bytes_of_names() {
    let names = names(&[
        b"s\xefd", b"\xff", b"s id", b" x", b"y ", b"z=", b"w;", b"\r",
    ]);
    assert_eq!(key_of(b"s\xefd", &names), Some(0));
    assert_eq!(key_of(b"\xff", &names), Some(1));
    assert_eq!(key_of(b"\ts id ", &names), Some(2));
    assert_eq!(key_of(b"\r", &names), Some(7));
    for other in [
        &b"sod"[..],
        b"s\xcfd",
        b"\x7f",
        b"s  id",
        b"s\tid",
        b"x",
        b" x",
        b"y",
        b"y ",
    ] {
        assert_eq!(key_of(other, &names), None, "{}", other.escape_ascii());
    }
    let import = |text: &[u8]| import_both(HOST, &names, text, &mut ImportSeen::new());
    assert_eq!(import(b"z==7"), refused(15));
    assert_eq!(import(b"w;=7"), refused(14));
}

/// A byte above 127 is one of a name like others. In the value it is no digit, and an attribute that has it is neither Secure nor HttpOnly.
#[test]
fn a_byte_above_127() {
    for byte in 128..=255 {
        let bytes = [b's', byte, b'd'];
        let names = names(&[b"", &bytes]);
        assert_eq!(key_of(&bytes, &names), Some(1));
        assert_eq!(key_of(b"sid", &names), None);
        let with = |front: &[u8], behind: &[u8]| [front, &[byte], behind].concat();
        refuses(&with(b"sid=7", b""), 16, ImportEvent::ValueNoDigit);
        accepts(&with(b"sid=7;", b"Secure"), 7, false, false);
        accepts(&with(b"sid=7;Secure", b""), 7, false, false);
        accepts(&with(b"sid=7;Secure;", b""), 7, true, false);
    }
}

#[test]
fn names_of_another_length() {
    let eight = usual_names().repeat(3);
    for length in (0..=300).filter(|&length| length != 128) {
        let mut seen = ImportSeen::new();
        let imported = import_both(HOST, &eight[..length], b"sid=7; Secure", &mut seen);
        assert_eq!(imported, refused(15));
        assert_eq!(seen.count(ImportEvent::NamesLength), 1);
    }
    assert_eq!(key_of(b"sid", &eight[..128]), Some(2));
}

/// Bit h of the readers is http at host h, bit 16 + h https there.
#[test]
fn readers_of_each_host() {
    let names = usual_names();
    for host in 0..16 {
        let import = |text: &[u8]| import_both(host, &names, text, &mut ImportSeen::new());
        let both = [host, host + 16].map(|bit| 2_u32.pow(bit));
        assert_eq!(import(b"sid=7").readers, both[0] + both[1]);
        assert_eq!(import(b"sid=7;HttpOnly").readers, both[0] + both[1]);
        assert_eq!(import(b"sid=7;Secure").readers, both[1]);
        assert_eq!(import(b"sid=7;HttpOnly;Secure").readers, both[1]);
    }
    for host in [16, 17, 31, 32, 48, 256, 1 << 16, u32::MAX] {
        let mut seen = ImportSeen::new();
        let imported = import_both(host, &names, b"sid=7;Secure", &mut seen);
        assert_eq!(imported, refused(6));
        assert_eq!(seen.count(ImportEvent::HostAlone), 1);
    }
}

/// Each fault alone and with those after it: the first number is given.
#[test]
fn the_first_number_that_applies() {
    let (good, other, short) = (usual_names(), names(&[b"SID"]), vec![0; 127]);
    let number = |host, names: &[u8], text: &[u8]| {
        import_both(host, names, text, &mut ImportSeen::new()).number
    };
    for text in [&b"sid=7"[..], b"sid=x", b"=x", b"x"] {
        for names in [&good, &other, &short] {
            assert_eq!(number(16, names, text), 6);
        }
    }
    for text in [&b"sid;x=7"[..], b"=7", b"=x", b" "] {
        for names in [&good, &other, &short] {
            assert_eq!(number(15, names, text), 14);
        }
    }
    for text in [&b"sid=7"[..], b"sid=x", b"sid="] {
        assert_eq!(number(15, &other, text), 15);
        assert_eq!(number(15, &short, text), 15);
    }
    assert_eq!(number(15, &good, b"sid=x"), 16);
    assert_eq!(number(15, &good, b"sid=7"), 0);
}

/// The pair is cut at the first equals sign and ends at the first semicolon; neither sign can be quoted.
#[test]
fn where_the_pair_is_cut() {
    let names = names(&[b"a", b"a=b", b"\"a", b"a\""]);
    let import = |text: &[u8]| import_both(HOST, &names, text, &mut ImportSeen::new());
    assert_eq!(import(b"a=b=7"), refused(16));
    assert_eq!(import(b"\"a=7;b\"").key, 2);
    assert_eq!(import(b"a\"=7;\"").key, 3);
    assert_eq!(import(b"a=\"7;\""), refused(16));
    assert_eq!(import(b"a=7;a\"=8").value, 7);
}

/// The cookie's own name is no attribute.
#[test]
fn a_cookie_named_secure() {
    let names = names(&[b"Secure", b"HttpOnly"]);
    let import = |text: &[u8]| import_both(HOST, &names, text, &mut ImportSeen::new());
    let secure = import(b"Secure=7");
    assert_eq!(
        (secure.key, secure.secure, secure.readers),
        (0, false, BOTH)
    );
    let http_only = import(b"HttpOnly=7; Secure=8");
    let flags = (http_only.secure, http_only.http_only);
    assert_eq!(
        (http_only.key, http_only.value, flags),
        (1, 7, (true, false))
    );
    assert_eq!(import(b"secure=7"), refused(15));
    assert_eq!(import(b"Secure; HttpOnly=7"), refused(14));
}
