//! Hostile lines, on which the plain and the fast importer agree: every short one, every damage of a good one, long ones, and random ones, among
//! which every event occurs.

#[path = "common/importing.rs"]
mod importing;
#[path = "common/lines.rs"]
mod lines;

use cases::Random;
use importing::{import_both, names, usual_names, HOST};
use lines::{damage, Call, LIKELY};
use reference::{import, ImportEvent, ImportSeen};

/// Every text of so many of these parts, behind this beginning.
fn every_text(front: &[u8], parts: &[&[u8]], length: u32, names: &[u8]) {
    let mut seen = ImportSeen::new();
    let mut text = Vec::new();
    for number in 0..parts.len().pow(length) {
        text.clear();
        text.extend(front);
        let mut left = number;
        for _ in 0..length {
            text.extend(parts[left % parts.len()]);
            left /= parts.len();
        }
        import_both(HOST, names, &text, &mut seen);
    }
}

#[test]
fn every_short_text() {
    let names = names(&[b"s", b"s s", b"7", b"\r", b"s\0", b"ss"]);
    let bytes: [&[u8]; 7] = [b"s", b"=", b"7", b";", b" ", b"\r", b"\0"];
    for length in 0..=6 {
        every_text(b"", &bytes, length, &names);
    }
}

#[test]
fn every_pair_of_few_parts() {
    let names = names(&[b"Sid", b"sid", b"sid sid"]);
    let parts: [&[u8]; 8] = [
        b"sid",
        b"=",
        b"7",
        b"429496729",
        b"0",
        b" ",
        b"\t",
        b";Secure",
    ];
    for length in 0..=6 {
        every_text(b"", &parts, length, &names);
    }
    for length in 0..=6 {
        every_text(b"sid=", &parts, length, &names);
    }
}

#[test]
fn every_attribute_of_few_parts() {
    let parts: [&[u8]; 8] = [b";", b"Secure", b"hTTPoNLY", b"=", b" ", b"\t", b"x", b"\r"];
    for length in 0..=6 {
        every_text(b"sid=7;", &parts, length, &usual_names());
    }
}

/// Every byte of a line changed into every other, dropped, and each value inserted before it.
fn damage_everywhere(text: &[u8]) {
    let (names, mut seen) = (usual_names(), ImportSeen::new());
    for place in 0..text.len() {
        let mut dropped = text.to_vec();
        dropped.remove(place);
        import_both(HOST, &names, &dropped, &mut seen);
        let (mut changed, mut inserted) = (text.to_vec(), text.to_vec());
        inserted.insert(place, 0);
        for byte in 0..=255 {
            changed[place] = byte;
            inserted[place] = byte;
            import_both(HOST, &names, &changed, &mut seen);
            import_both(HOST, &names, &inserted, &mut seen);
        }
    }
}

#[test]
fn every_single_damage() {
    damage_everywhere(b"sid=7");
    damage_everywhere(b" sid = 4294967295 ; Secure");
    damage_everywhere(b"sid=7;secure;HTTPONLY");
    damage_everywhere(b"\tsid\t=\t7\t;\tSecure\t=\tx\t;HttpOnly\t");
    damage_everywhere(b"sid=7; Path=/; Max-Age=3600; Secure; HttpOnly\r");
    // Longer parts.
    damage_everywhere(&[b"sid=7; ", &[b'x'; 90][..], b"; Secure"].concat());
    damage_everywhere(&[&[b' '; 90][..], b"sid", &[b'\t'; 90], b"=7"].concat());
    damage_everywhere(&[b"sid=", &[b' '; 90][..], b"7", &[b'\t'; 90], b";Secure"].concat());
}

/// Before, behind and between the parts of a line stand so many of these bytes. Lengths around those at which a search may go faster.
#[test]
fn parts_of_each_length() {
    let (names, mut seen) = (usual_names(), ImportSeen::new());
    for length in (0..140).chain([255, 256, 257, 1023, 1024, 1025]) {
        for byte in *b" \t=;x\0" {
            let fill = vec![byte; length];
            let parts = [
                &b""[..],
                b"sid",
                b"=",
                b"7",
                b";",
                b"Secure",
                b"=",
                b";HttpOnly",
                b"",
            ];
            for place in 1..parts.len() {
                let (before, behind) = parts.split_at(place);
                let text = [&before.concat()[..], &fill, &behind.concat()].concat();
                import_both(HOST, &names, &text, &mut seen);
                import_both(HOST, &names, &text[..text.len() - 9], &mut seen);
            }
        }
    }
}

/// What long lines are made of.
const LONG_LINE_PARTS: [&[u8]; 16] = [
    b" ",
    b"\t",
    b";",
    b"=",
    b"x",
    b"7",
    b"0",
    b"\0",
    b"\xff",
    b"; ",
    b" ;",
    b" =",
    b"Secure ",
    b";Secure",
    b"; Secured",
    b";HttpOnly =",
];

/// Lines of some 65,536 bytes, of every make-up. Where a byte were looked at again and again, this would take minutes.
#[test]
fn long_lines() {
    let fronts: [&[u8]; 6] = [b"", b"sid", b"sid=", b"sid=7", b"sid=7;", b"sid=7;Secure"];
    let ends: [&[u8]; 5] = [b"", b"=7", b";Secure", b";HttpOnly;Secure", b"sid=7;Secure"];
    let (names, mut seen) = (usual_names(), ImportSeen::new());
    for part in LONG_LINE_PARTS {
        let many = part.repeat((64 << 10) / part.len());
        for front in fronts {
            for end in ends {
                let text = [front, &many, end].concat();
                import_both(HOST, &names, &text, &mut seen);
            }
        }
    }
}

/// What an event has before a colon or a comma is the number of the refusals that it belongs to.
fn check_events(number: u32, seen: &ImportSeen) {
    let mut clauses = 0;
    for event in ImportEvent::ALL {
        if seen.count(event) > 0 {
            let name = event.name();
            let digits = name.split([':', ',']).next().unwrap();
            let expected = digits.parse().unwrap_or(0);
            assert_eq!(number, expected, "{name}");
            let is_clause = name.starts_with(&format!("{number}:"));
            clauses += if is_clause { seen.count(event) } else { 0 };
        }
    }
    assert_eq!(clauses, u64::from(number != 0));
}

#[test]
fn random_lines() {
    let mut all = ImportSeen::new();
    for case in 0..200_000 {
        let random = Random::of_case(10, case);
        let Call {
            host,
            names,
            mut text,
        } = Call::random(&random);
        import_both(host, &names, &text, &mut all);
        damage(&mut text, &random);
        let mut seen = ImportSeen::new();
        let imported = import_both(host, &names, &text, &mut seen);
        check_events(imported.number, &seen);
        assert_eq!(import(host, &names, &text), imported);
    }
    let missing: Vec<_> = all.missing().into_iter().map(ImportEvent::name).collect();
    assert!(missing.is_empty(), "never occurred: {missing:#?}");
}

#[test]
fn random_bytes() {
    let (names, mut seen) = (usual_names(), ImportSeen::new());
    for case in 0..200_000 {
        let random = Random::of_case(11, case);
        let front = random.pick(&[&b""[..], b"sid", b"sid=", b"sid=7;", b"sid=7;Secure"]);
        let alphabet = random.pick(&[LIKELY, b"sid=7; ", b"=; \t", b"Secure; ", b"07; \r"]);
        let length = random.below(100);
        let bytes = (0..length).map(|_| random.pick(alphabet));
        let text: Vec<u8> = front.iter().copied().chain(bytes).collect();
        import_both(HOST, &names, &text, &mut seen);
    }
}
