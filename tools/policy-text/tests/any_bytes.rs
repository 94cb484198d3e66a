//! Any bytes are read to their end: nothing panics, and what is told stands in the text.

use std::time::{Duration, Instant};

use policy_text::{parse, render, Diagnostic, TEXT_BYTES};

const CANTEEN: &[u8] = include_bytes!("canteen.policy");

/// What is told of a text, which is in its order and can be printed.
fn told(text: &[u8]) -> Vec<Diagnostic> {
    let told = parse(text).err().unwrap_or_default();
    let starts: Vec<_> = told.iter().filter_map(|it| it.span).collect();
    assert!(starts.windows(2).all(|two| two[0].start <= two[1].start));
    for it in &told {
        let span = it.span.unwrap_or_default();
        assert!(span.start <= span.end && span.end <= text.len());
        let shown = render(it, "a.policy", text);
        assert!(
            shown.lines().all(|line| line.chars().count() < 400),
            "{shown}"
        );
        assert!(
            shown.chars().all(|sign| sign == '\n' || !sign.is_control()),
            "{shown}"
        );
    }
    told
}

fn random(seed: &mut u64) -> usize {
    *seed ^= *seed << 13;
    *seed ^= *seed >> 7;
    *seed ^= *seed << 17;
    (*seed >> 33) as usize
}

/// A text with a few bytes changed, added, left out or moved.
fn changed(seed: &mut u64) -> Vec<u8> {
    let mut text = CANTEEN.to_vec();
    for _ in 0..=random(seed) % 6 {
        let place = random(seed) % text.len();
        let other = random(seed) % text.len();
        match random(seed) % 6 {
            0 => text[place] = random(seed) as u8,
            1 => text.insert(place, random(seed) as u8),
            2 => drop(text.remove(place)),
            3 => text.insert(place, b"\n,=+#\t -0r"[random(seed) % 10]),
            4 => text.swap(place, other),
            _ => drop(text.drain(place.min(other)..place.max(other).min(place.min(other) + 20))),
        }
    }
    text
}

#[test]
fn a_text_that_is_slightly_wrong() {
    let mut seed = 0x2545_f491_4f6c_dd1d;
    let mut wrong = 0;
    for _ in 0..3000 {
        wrong += usize::from(!told(&changed(&mut seed)).is_empty());
    }
    assert!(wrong > 1500);
}

#[test]
fn every_beginning_of_a_text() {
    (0..CANTEEN.len()).for_each(|end| drop(told(&CANTEEN[..end])));
}

#[test]
fn random_bytes() {
    let mut seed = 0x1234_5678_9abc_def1;
    for _ in 0..2000 {
        let length = random(&mut seed) % 100;
        let text: Vec<u8> = (0..length).map(|_| random(&mut seed) as u8).collect();
        told(&text);
    }
}

/// A long text of one part over and over.
fn long(begin: &str, part: &[u8]) -> Vec<u8> {
    let parts = part.iter().copied().cycle();
    begin.bytes().chain(parts).take(TEXT_BYTES / 8).collect()
}

#[test]
fn long_texts() {
    let texts: [(&str, &[u8]); 18] = [
        ("", b"\n"),
        ("", b","),
        ("", b",\n"),
        ("", b"x\n"),
        ("", b"hos x\n"),
        ("", b"\0"),
        ("", b"\xff\n"),
        ("# ", b"x"),
        ("host a number ", b"9"),
        ("host ", b"n"),
        ("connection c\n readers ", b"n"),
        ("session\n load ", b"n"),
        ("host a\nconnection c\n readers a", b",a"),
        ("host a\nconnection c\n readers a", b",\na,b"),
        ("script s\n", b"end\n"),
        ("session\n", b"record 0f\n"),
        ("", b"url u at http h\n"),
        ("connection c\n readers x,", b"#\n"),
    ];
    for (begin, part) in texts {
        let text = long(begin, part);
        let start = Instant::now();
        let told = told(&text);
        let spent = start.elapsed();
        assert!(told.len() <= 21);
        assert!(
            spent < Duration::from_secs(30),
            "{begin:?} {part:?}: {spent:?}"
        );
    }
}

#[test]
fn a_text_that_is_too_long() {
    let told = told(&vec![b'#'; TEXT_BYTES + 1]);
    let shown: String = told.iter().map(|it| render(it, "a.policy", b"")).collect();
    let expected = "error: the file has more than 4194304 bytes, 4 MiB\n --> a.policy\n";
    assert_eq!(shown, expected);
}

#[test]
fn a_record_has_at_most_as_many_bytes_as_a_byte_counts() {
    let record = |bytes: usize| format!("session\n record{}\n", " 00".repeat(bytes));
    assert_eq!(told(record(u8::MAX.into()).as_bytes()), []);
    let told = told(record(usize::from(u8::MAX) + 1).as_bytes());
    assert_eq!(told[0].message, "expected at most 255 bytes, found `00`");
}

#[test]
fn many_errors_are_counted() {
    let told = told(&b"turnip\n".repeat(100_000));
    assert_eq!(told.len(), 21);
    assert_eq!(told[20].message, "and 99980 more errors");
}

#[test]
fn bytes_that_are_not_utf8() {
    let text = b"host canteen\nhost b\xffnk # \xfe\n";
    let told = told(text);
    assert_eq!(told.len(), 1);
    let expected = "\
error: byte 0xff is not UTF-8
 --> a.policy:2:7
  |
2 | host b\u{fffd}nk # \u{fffd}
  |       ^ not UTF-8
  = the file is to be saved as UTF-8
";
    assert_eq!(render(&told[0], "a.policy", text), expected);
}

#[test]
fn a_long_line_is_cut_around_the_place() {
    let text = format!(
        "{}host{}a b {}\n",
        " ".repeat(200),
        " ".repeat(50),
        "c".repeat(200)
    );
    let told = told(text.as_bytes());
    let line = format!("...{}a b {}...", " ".repeat(38), "c".repeat(75));
    let under = format!("{}^ the line ends before this", " ".repeat(43));
    let shown = render(&told[0], "a.policy", text.as_bytes());
    let lines: Vec<_> = shown.lines().skip(1).take(4).collect();
    let expected = [
        " --> a.policy:1:257",
        "  |",
        &format!("1 | {line}"),
        &format!("  | {under}"),
    ];
    assert_eq!(lines, expected);
}

#[test]
fn a_byte_order_mark_and_carriage_returns() {
    assert_eq!(told(b"\xef\xbb\xbfhost a\r\nhost b # c\r\n"), []);
    let text = b"\xef\xbb\xbfhost a b\r\n";
    let shown = render(&told(text)[0], "a.policy", text);
    assert!(shown.contains(":1:8\n"), "{shown}");
    assert!(shown.contains("1 | host a b\n  |        ^"), "{shown}");
}
