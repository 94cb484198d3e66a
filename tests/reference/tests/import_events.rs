//! What is noted of a line. Tables list events, lines of which each is noted, and lines just outside it of which it is not.

#[path = "common/importing.rs"]
mod importing;

use importing::{import_both, names, HOST};
use reference::ImportEvent::{self, *};
use reference::ImportSeen;

type Texts = &'static [&'static [u8]];

/// Of the first lines it is noted, of the others not.
type Table = &'static [(ImportEvent, Texts, Texts)];

fn seen(host: u32, names: &[u8], text: &[u8]) -> ImportSeen {
    let mut seen = ImportSeen::new();
    import_both(host, names, text, &mut seen);
    seen
}

fn check(host: u32, names: &[u8], text: &[u8], event: ImportEvent, is_noted: bool) {
    let count = seen(host, names, text).count(event);
    let case = text.escape_ascii();
    assert_eq!(count > 0, is_noted, "{case}: {}", event.name());
}

fn check_all(host: u32, names: &[u8], table: Table) {
    for &(event, noted, others) in table {
        for text in noted {
            check(host, names, text, event, true);
        }
        for text in others {
            check(host, names, text, event, false);
        }
    }
}

const HOSTS_ABOVE: Table = &[
    (HostAbove, &[b"sid=7", b"", b"x=x"], &[]),
    (HostFirstAbove, &[b"sid=7", b""], &[]),
    (HostShift, &[], &[b"sid=7"]),
    (
        HostAlone,
        &[b"sid=7", b"sid=7;Secure"],
        &[b"Sid=7", b"sid=x", b"sid"],
    ),
    (
        HostFlag,
        &[b"sid=7;Secure", b";HttpOnly"],
        &[b"sid=7", b"Secure=7", b"sid=7;Secured"],
    ),
    (HostThenName, &[b"", b"=7", b"sid"], &[b"sid=7", b"x=x"]),
];

#[test]
fn of_a_host_above_15() {
    check_all(16, &names(&[b"sid"]), HOSTS_ABOVE);
    for (host, is_above) in [(15, false), (16, true), (u32::MAX, true)] {
        check(host, &names(&[b"sid"]), b"sid=7", HostAbove, is_above);
    }
    for (host, is_first) in [(16, true), (17, false)] {
        check(host, &names(&[b"sid"]), b"sid=7", HostFirstAbove, is_first);
    }
    for (host, is_shift) in [(31, false), (32, true), (u32::MAX, true)] {
        check(host, &names(&[b"sid"]), b"sid=7", HostShift, is_shift);
    }
    for host in 0..=16 {
        check(host, &names(&[b"sid"]), b"sid=7", Host0, host == 0);
        check(host, &names(&[b"sid"]), b"sid=7", Host15, host == 15);
    }
}

const NO_NAMES: Table = &[
    (
        NoEquals,
        &[b"", b"sid", b";", b"sid;x=7"],
        &[b"=", b"sid=7", b"sid="],
    ),
    (NoEqualsText, &[b""], &[b" ", b";", b"sid"]),
    (NoEqualsEmpty, &[b";", b";Secure"], &[b"", b" ;", b"sid;"]),
    (
        NoEqualsBlank,
        &[b" ", b"\t;Secure"],
        &[b"", b";", b"\r", b" sid"],
    ),
    (
        NoEqualsAttribute,
        &[b"sid;x=7", b";=", b"sid;;x="],
        &[b"sid;x", b"=;x=7", b"sid"],
    ),
    (
        NameEmpty,
        &[b"=", b" =7", b"==", b"=;x=7"],
        &[b"", b"\r=7", b"sid=7"],
    ),
    (NameNothing, &[b"=", b"=sid=7"], &[b" =", b"sid"]),
    (NameBlank, &[b" =", b"\t=sid=7"], &[b"=", b" sid", b"\r=7"]),
    (
        NoNameFlag,
        &[b";Secure", b"=7;x;httponly"],
        &[b"Secure", b"sid;Secured", b""],
    ),
    (NoNameThenNames, &[], &[b"", b"=7"]),
];

const NO_KEYS: Table = &[
    (
        NoKey,
        &[b"Sid=7", b"y=y", b"\0=7"],
        &[b"sid=7", b"", b"sid=x"],
    ),
    (NoKeyEmpty, &[], &[b"Sid=7"]),
    (
        NoKeyCase,
        &[b"Sid=7", b"SID=x", b"S\xefd=7"],
        &[b"Side=7", b"sid=x", b"s\xcfd=7"],
    ),
    (
        NoKeyBegins,
        &[b"side=7", b"sid\0=7"],
        &[b"Side=7", b"sixteen_letters__=7", b"y=7"],
    ),
    (
        NoKeyBegins16,
        &[b"sixteen_letters__=7"],
        &[b"side=7", b"Sixteen_letters__=7"],
    ),
    (
        NoKeyBegun,
        &[b"si=7", b"sixteen_letters=7"],
        &[b"Si=7", b"side=7"],
    ),
    (NoKeyBlank, &[b"z=7", b" z =7"], &[b"Z=7", b"y=7"]),
    (
        NoKeyPadded,
        &[b"sid\0=7", b"sid\0\0=7", b"b\0end=7"],
        &[b"b\0endx=7", b"x\0=7", b"side=7"],
    ),
    (NoKeyBehind, &[b"end=7"], &[b"nd=7", b"b\0end=7"]),
    (
        NoKeyHigh,
        &[b"y\xff=7", b"S\xefd=7"],
        &[b"y=\xff", b"y=7;\xff"],
    ),
    (NoKeyFlag, &[b"y=7;Secure"], &[b"y=7", b"Secure=7"]),
    (NoKeyThenNumber, &[b"y=x", b"y="], &[b"y=7"]),
    (NamesLength, &[], &[b"y=7"]),
];

const NO_NUMBERS: Table = &[
    (
        ValueEmpty,
        &[b"sid=", b"sid= \t", b"sid=;x"],
        &[b"sid=\r", b"sid=="],
    ),
    (ValueNothing, &[b"sid=", b"sid=;7"], &[b"sid= ", b"sid=x"]),
    (
        ValueBlank,
        &[b"sid= ", b"sid=\t;7"],
        &[b"sid=", b"sid= x", b"sid=\r"],
    ),
    (
        ValueNoDigit,
        &[b"sid=x", b"sid=12345678901x"],
        &[b"sid=", b"sid=12345678901"],
    ),
    (
        ValueSign,
        &[b"sid=+7", b"sid= -0 "],
        &[b"sid=+", b"sid=+x", b"sid=7+", b"sid=++7"],
    ),
    (
        ValueBlankInside,
        &[b"sid=7 7", b"sid= 7\t 7 7 "],
        &[b"sid=7 x", b"sid=x"],
    ),
    (
        ValueEquals,
        &[b"sid=7=7", b"sid==7", b"sid=="],
        &[b"sid=7=x", b"sid=x"],
    ),
    (
        ValueReturn,
        &[b"sid=7\r", b"sid=7\r;x"],
        &[b"sid=\r", b"sid=x\r", b"sid=7\r\r"],
    ),
    (
        ValueZeroByte,
        &[b"sid=7\0", b"sid=7\0;x"],
        &[b"sid=\0", b"sid=7\x007"],
    ),
    (
        ValueNextToDigits,
        &[b"sid=/", b"sid=7:"],
        &[b"sid=x", b"sid=;/"],
    ),
    (ValueHigh, &[b"sid=\xb7", b"sid=7\xff"], &[b"sid=x;\xff"]),
    (
        ValueLong,
        &[b"sid=12345678901", b"sid=00000000007"],
        &[b"sid=9999999999"],
    ),
    (
        ValueLongZeros,
        &[b"sid=00000000007", b"sid=00000000000"],
        &[b"sid=12345678901", b"sid=04294967296"],
    ),
    (
        ValueLongest,
        &[b"sid=000000000000000000007"],
        &[b"sid=00000000000000000007"],
    ),
    (
        ValueAbove,
        &[b"sid=4294967296", b"sid=9999999999"],
        &[b"sid=04294967296"],
    ),
    (
        ValueFirstAbove,
        &[b"sid=4294967296"],
        &[b"sid=4294967297", b"sid=04294967296"],
    ),
    (
        ValueLastAbove,
        &[b"sid=9999999999"],
        &[b"sid=9999999998", b"sid=09999999999"],
    ),
    (
        NoNumberFlag,
        &[b"sid=;Secure", b"sid=x;HttpOnly"],
        &[b"sid=Secure", b"sid="],
    ),
];

const PAIRS: Table = &[
    (
        Neither,
        &[b"sid=7", b"sid=7;x"],
        &[b"sid=7;Secure", b"sid=7;HttpOnly"],
    ),
    (
        Secure,
        &[b"sid=7;Secure"],
        &[b"sid=7;Secure;HttpOnly", b"sid=7"],
    ),
    (
        HttpOnly,
        &[b"sid=7;HttpOnly"],
        &[b"sid=7;Secure;HttpOnly", b"sid=7"],
    ),
    (
        SecureHttpOnly,
        &[b"sid=7;Secure;HttpOnly"],
        &[b"sid=7;Secure", b"sid=7;HttpOnly"],
    ),
    (PairAlone, &[b"sid=7"], &[b"sid=7;", b"sid"]),
    (Name1, &[b"x=7", b" x =7"], &[b"sid=7"]),
    (Name15, &[b"fifteen_letters=7"], &[b"sixteen_letters_=7"]),
    (Name16, &[b"sixteen_letters_=7"], &[b"fifteen_letters=7"]),
    (
        NameSpaceBefore,
        &[b" sid=7", b" \tsid=7"],
        &[b"\t sid=7", b"sid =7", b"sid=7"],
    ),
    (
        NameSpaceBehind,
        &[b"sid =7", b"sid\t =7"],
        &[b"sid \t=7", b" sid=7", b"sid= 7"],
    ),
    (NameTabBefore, &[b"\tsid=7"], &[b" \tsid=7", b"sid\t=7"]),
    (NameTabBehind, &[b"sid\t=7"], &[b"sid\t =7", b"\tsid=7"]),
    (NameBlankInside, &[b"s id=7", b" s id =7"], &[b" sid =7"]),
    (NameHigh, &[b"s\xefd=7"], &[b"sid=7;\xff"]),
    (
        NameWord,
        &[b"Secure=7", b"Secure=7;x"],
        &[b"Secure=7;HttpOnly", b"sid=7"],
    ),
    (Value0, &[b"sid=0", b"sid=0000000000"], &[b"sid=1", b"sid="]),
    (ValueMost, &[b"sid=4294967295"], &[b"sid=4294967294"]),
    (ValueZeros, &[b"sid=00", b"sid=07"], &[b"sid=0", b"sid=70"]),
    (
        ValueTen,
        &[b"sid=1234567890"],
        &[b"sid=0123456789", b"sid=123456789"],
    ),
    (
        ValueTenZeros,
        &[b"sid=0123456789"],
        &[b"sid=1234567890", b"sid=012345678"],
    ),
    (
        ValueSpaceBefore,
        &[b"sid= 7", b"sid= \t7"],
        &[b"sid=\t 7", b"sid=7 ", b"sid =7"],
    ),
    (
        ValueSpaceBehind,
        &[b"sid=7 ", b"sid=7\t ;x"],
        &[b"sid=7 \t", b"sid=7; "],
    ),
    (ValueTabBefore, &[b"sid=\t7"], &[b"sid= \t7", b"sid=7\t"]),
    (
        ValueTabBehind,
        &[b"sid=7\t", b"sid=7\t;"],
        &[b"sid=7\t ", b"sid=\t7"],
    ),
];

const WORDS: Table = &[
    (
        SecureAsWritten,
        &[b"sid=7;Secure", b"sid=7;Secure;x"],
        &[b"sid=7; Secure", b"sid=7;Secure=", b"sid=7;secure"],
    ),
    (
        SecureCase,
        &[b"sid=7;secure", b"sid=7; SECURE =x"],
        &[b"sid=7; Secure ", b"sid=7;secured"],
    ),
    (
        SecureValue,
        &[b"sid=7;Secure=x", b"sid=7;Secure= "],
        &[b"sid=7;Secure=", b"sid=7;Secure;x=x"],
    ),
    (
        SecureValueEmpty,
        &[b"sid=7;Secure=", b"sid=7;Secure=;x=x"],
        &[b"sid=7;Secure= ", b"sid=7;Secure"],
    ),
    (
        SecureTwoEquals,
        &[b"sid=7;Secure=x=x", b"sid=7;Secure=="],
        &[b"sid=7;Secure=x"],
    ),
    (
        SecureBlankBefore,
        &[b"sid=7; Secure", b"sid=7;\tSecure"],
        &[b"sid=7 ;Secure ", b"sid=7;Secure= "],
    ),
    (
        SecureBlankBehind,
        &[b"sid=7;Secure ", b"sid=7;Secure\t=x"],
        &[b"sid=7; Secure", b"sid=7;Secure= x"],
    ),
    (
        SecureTwice,
        &[b"sid=7;Secure;Secure", b"sid=7;Secure;x;secure=x"],
        &[b"sid=7;Secure;HttpOnly", b"Secure=7;Secure"],
    ),
    (
        SecureFirst,
        &[b"sid=7;Secure;x", b"sid=7;Secure;"],
        &[b"sid=7;x;Secure", b"sid=7;Secure;HttpOnly", b"sid=7;x"],
    ),
    (
        SecureLater,
        &[b"sid=7;x;Secure", b"sid=7;;Secure"],
        &[b"sid=7;Secure;x", b"sid=7;HttpOnly;Secure", b"sid=7;x"],
    ),
    (
        HttpOnlyAsWritten,
        &[b"sid=7;HttpOnly"],
        &[b"sid=7;HttpOnly ", b"sid=7;HttpOnly=x", b"sid=7;Httponly"],
    ),
    (
        HttpOnlyCase,
        &[b"sid=7;httponly", b"sid=7;Httponly =x"],
        &[b"sid=7; HttpOnly "],
    ),
    (
        HttpOnlyValue,
        &[b"sid=7;HttpOnly=x"],
        &[b"sid=7;HttpOnly=", b"sid=7;HttpOnly;Secure=x"],
    ),
    (
        HttpOnlyValueEmpty,
        &[b"sid=7;HttpOnly="],
        &[b"sid=7;HttpOnly=x", b"sid=7;HttpOnly"],
    ),
    (
        HttpOnlyTwoEquals,
        &[b"sid=7;HttpOnly=x="],
        &[b"sid=7;HttpOnly=x"],
    ),
    (
        HttpOnlyBlankBefore,
        &[b"sid=7; HttpOnly"],
        &[b"sid=7;HttpOnly "],
    ),
    (
        HttpOnlyBlankBehind,
        &[b"sid=7;HttpOnly "],
        &[b"sid=7; HttpOnly"],
    ),
    (
        HttpOnlyTwice,
        &[b"sid=7;HttpOnly;HttpOnly"],
        &[b"sid=7;HttpOnly;Secure;Secure"],
    ),
    (
        HttpOnlyFirst,
        &[b"sid=7;HttpOnly;x"],
        &[b"sid=7;x;HttpOnly", b"sid=7;HttpOnly;Secure"],
    ),
    (
        HttpOnlyLater,
        &[b"sid=7;x;HttpOnly"],
        &[b"sid=7;HttpOnly;x", b"sid=7;Secure;HttpOnly"],
    ),
];

const OTHERS: Table = &[
    (
        Other,
        &[b"sid=7;x", b"sid=7;Secured", b"sid=7;\r"],
        &[b"sid=7;", b"sid=7; ;=x;Secure"],
    ),
    (
        OtherEmpty,
        &[b"sid=7;;", b"sid=7;;Secure"],
        &[b"sid=7;", b"sid=7;x;", b"sid=7; ;x", b"sid=7;=;x"],
    ),
    (
        OtherEmptyLast,
        &[b"sid=7;", b"sid=7;Secure;"],
        &[b"sid=7;;x", b"sid=7; ", b"sid=7;="],
    ),
    (
        OtherBlank,
        &[b"sid=7; ", b"sid=7;\t;x"],
        &[b"sid=7;", b"sid=7; =x", b"sid=7;\r"],
    ),
    (
        OtherNoName,
        &[b"sid=7;=", b"sid=7; =x"],
        &[b"sid=7;x=", b"sid=7;;"],
    ),
    (
        OtherHigh,
        &[b"sid=7;\xff", b"sid=7;Secure\xa0"],
        &[b"sid=7;x=\xff", b"s\xefd=7"],
    ),
    (
        OtherReturn,
        &[b"sid=7;\r", b"sid=7;Secure\r", b"sid=7;Secure=\r"],
        &[b"sid=7;\r;", b"sid=7;\r "],
    ),
    (
        NearLonger,
        &[b"sid=7;Secured", b"sid=7;httponlyX"],
        &[b"sid=7;Secure", b"sid=7;Secured1", b"sid=7;Secure1"],
    ),
    (
        NearShorter,
        &[b"sid=7;Secur", b"sid=7; HTTPONL "],
        &[b"sid=7;Secu", b"sid=7;Secure", b"sid=7;"],
    ),
    (
        NearFront,
        &[b"sid=7;xSecure", b"sid=7;\rHttpOnly"],
        &[b"sid=7; Secure", b"sid=7;xxSecure"],
    ),
    (
        NearLetter,
        &[b"sid=7;Sekure", b"sid=7;Httponlx"],
        &[b"sid=7;secure", b"sid=7;Sekurs"],
    ),
    (
        NearHighBit,
        &[b"sid=7;\xd3ecure", b"sid=7;Http\xcfnl\xf9"],
        &[b"sid=7;Secure", b"sid=7;\xffecure"],
    ),
    (
        NearBroken,
        &[b"sid=7;Sec ure", b"sid=7;H t\ttpOnly"],
        &[b"sid=7; Secure ", b"sid=7;Sec\rure"],
    ),
    (
        NearMore,
        &[b"sid=7;Secure x", b"sid=7;HttpOnly\tSecure=x"],
        &[b"sid=7;Secure ", b"sid=7;Secure =x"],
    ),
    (
        NearReturn,
        &[b"sid=7;Secure\r", b"sid=7;HttpOnly\r=x"],
        &[b"sid=7;Secure\r\r", b"sid=7;Secure=\r"],
    ),
    (
        NearZeroByte,
        &[b"sid=7;Secure\0", b"sid=7; httponly\0 "],
        &[b"sid=7;Secure\0x", b"sid=7;\0"],
    ),
    (
        NearOtherSpace,
        &[b"sid=7;Secure\n", b"sid=7;Secure\x0b", b"sid=7;Secure\x0c"],
        &[b"sid=7;Secure\r", b"sid=7;Secure "],
    ),
    (
        NearValue,
        &[b"sid=7;x=Secure", b"sid=7;= httponly "],
        &[b"sid=7;Secure=HttpOnly", b"sid=7;x=Secured"],
    ),
];

#[test]
fn of_lines_under_the_same_names() {
    let names = names(&[
        b"Secure",
        b"sid",
        b" z",
        b"fifteen_letters",
        b"sixteen_letters_",
        b"s id",
        b"s\xefd",
        b"x",
    ]);
    for table in [NO_NAMES, NO_NUMBERS, PAIRS, WORDS, OTHERS] {
        check_all(HOST, &names, table);
    }
}

#[test]
fn of_lines_whose_name_no_key_has() {
    let names = names(&[
        b"",
        b"sid",
        b"s\xefd",
        b" z\t",
        b"sixteen_letters_",
        b"b\0end",
        b"x1",
        b"",
    ]);
    check_all(HOST, &names, NO_KEYS);
    check(HOST, &self::names(&[]), b"sid=7", NoKeyEmpty, true);
    check(HOST, &self::names(&[b"\0sid"]), b"sid=7", NoKeyEmpty, true);
}

#[test]
fn of_names_of_another_length() {
    let names = names(&[b"sid"]).repeat(2);
    for length in [0, 1, 127, 128, 129, 256] {
        let check = |text, event, is_noted| check(HOST, &names[..length], text, event, is_noted);
        check(b"sid=7", NamesLength, length != 128);
        check(b"sid=7", NamesNone, length == 0);
        check(b"sid=7", NamesShort, (1..128).contains(&length));
        check(b"sid=7", NamesLong, length > 128);
        check(b"sid=7", NamesLengthEqual, ![0, 1, 128].contains(&length));
        check(b"=7", NoNameThenNames, length != 128);
    }
}

/// The key that is told is 3. These are the names of keys 2 and 4.
#[test]
fn of_the_key_that_is_told() {
    let cases: [(ImportEvent, &[u8], &[u8]); 14] = [
        (KeyLowest, b"other", b"sid"),
        (KeyLowest, b"other", b"sid\0more"),
        (KeyAboveEmpty, b"", b"other"),
        (KeyAboveEmpty, b"\0other", b"other"),
        (KeyAboveCase, b"Sid", b"other"),
        (KeyAboveBegins, b"si", b"other"),
        (KeyAboveBegun, b"side", b"other"),
        (KeyAboveBehind, b"other\0sid", b"other"),
        // Of a higher key only that it is equal is noted.
        (Neither, b"other", b"Sid"),
        (Neither, b"other", b"si"),
        (Neither, b"other", b"side"),
        (Neither, b"other", b""),
        (Neither, b"other", b"other\0sid"),
        (Neither, b"other", b"other"),
    ];
    let events = [
        KeyLowest,
        KeyAboveEmpty,
        KeyAboveCase,
        KeyAboveBegins,
        KeyAboveBegun,
        KeyAboveBehind,
    ];
    for (noted, lower, higher) in cases {
        let names = names(&[b"other", b"other", lower, b"sid", higher]);
        for event in events {
            check(HOST, &names, b"sid=7", event, event == noted);
        }
    }
}

#[test]
fn of_the_place_of_the_key() {
    for key in 0..8 {
        let mut list: [&[u8]; 8] = [b"other"; 8];
        list[key] = b"sid";
        check(HOST, &names(&list), b"sid=7", Key0, key == 0);
        check(HOST, &names(&list), b"sid=7", Key7, key == 7);
        check(HOST, &names(&list), b"sid=7", KeyFilled, false);
        list[key] = b"sid\0\0x";
        check(HOST, &names(&list), b"sid=7", KeyFilled, true);
    }
}

#[test]
fn events_have_names() {
    for (place, event) in ImportEvent::ALL.into_iter().enumerate() {
        let others = &ImportEvent::ALL[place + 1..];
        assert!(others.iter().all(|other| other.name() != event.name()));
    }
}
