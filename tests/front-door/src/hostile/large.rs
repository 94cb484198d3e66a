//! Texts that are long, deep or wide, tried once: what is done with them grows as they do.

use std::time::{Duration, Instant};

use policy_text::{FIRST_RECORD, TEXT_BYTES, WALK_BYTES};

use super::judged;
use crate::context::{Context, Verdict};

/// All that is done with a text of the most bytes takes no longer than this.
const PATIENCE: Duration = Duration::from_secs(10);

/// More than twice the most bytes: 10 MiB.
const DOUBLE: usize = 2 * TEXT_BYTES + TEXT_BYTES / 2;

/// As many loads as walk takes: three bytes each, after a byte for their length.
const MOST_LOADS: usize = (WALK_BYTES - FIRST_RECORD) / 4;

pub fn check(context: &mut Context) -> Verdict {
    for (name, text) in texts() {
        let begun = Instant::now();
        judged(&text, context).map_err(|why| format!("{name}: {why}"))?;
        let took = begun.elapsed();
        if took > PATIENCE {
            return Err(format!("{name}: {} bytes take {took:?}", text.len()));
        }
        context.seen.count("large texts");
    }
    Ok(())
}

/// So many bytes of a piece over and over, after a beginning.
fn filled(front: &str, piece: &str, bytes: usize) -> Vec<u8> {
    let pieces = piece.bytes().cycle();
    front.bytes().chain(pieces).take(bytes).collect()
}

fn texts() -> Vec<(&'static str, Vec<u8>)> {
    let mut texts = plain();
    texts.extend(lists());
    texts.extend(sections());
    texts
}

/// One thing over and over.
fn plain() -> Vec<(&'static str, Vec<u8>)> {
    let most = TEXT_BYTES;
    vec![
        ("10 MiB of zeros", vec![0; DOUBLE]),
        ("10 MiB of lines", filled("", "host a\n", DOUBLE)),
        ("4 MiB of spaces", filled("", " ", most)),
        ("4 MiB of newlines", filled("", "\n", most)),
        ("4 MiB of comments", filled("", "# a\n", most)),
        ("4 MiB of one comment", filled("#", "a", most)),
        ("4 MiB of one word", filled("", "a", most)),
        ("4 MiB of one number", filled("host a number ", "9", most)),
        ("4 MiB of commas", filled("", ",", most)),
        ("4 MiB of commas and lines", filled("", ",\n", most)),
        ("4 MiB of one host", filled("", "host a\n", most)),
        ("4 MiB of no character", vec![0xff; most]),
        ("4 MiB of é", filled("", "é", most)),
    ]
}

/// Long lists, deep lines and many names.
fn lists() -> Vec<(&'static str, Vec<u8>)> {
    let list = "host a\ncookie s of a\nreaders a";
    let deep = format!("\n{}", " ".repeat(5_000));
    let declared: String = (0..200_000).map(|n| format!("host h{n}\n")).collect();
    vec![
        ("a million commas", filled(list, ", a", 3_000_000)),
        ("4 MiB of deep lines", filled("host a", &deep, TEXT_BYTES)),
        ("many hosts", declared.into_bytes()),
    ]
}

/// Names, steps and records that are read one by one.
fn sections() -> Vec<(&'static str, Vec<u8>)> {
    let most = TEXT_BYTES;
    let record = "load u on c\n";
    let head = "host a\nurl u at https a\nreaders everyone\nwriters everyone\nconnection c\nreaders nobody\nwriters everyone\n";
    let nowhere = "script s for nowhere\n";
    let session = format!("{head}session\n");
    let bytes = format!("{session}record ");
    let records = session.len() + record.len() * MOST_LOADS;
    vec![
        ("4 MiB of unknown names", filled(head, nowhere, most)),
        ("4 MiB of near names", filled(head, "partner uu\n", most)),
        ("4 MiB of steps", filled("script s\n", "r0 = 1\n", most)),
        ("4 MiB of records", filled(&session, record, most)),
        (
            "as many records as there can be",
            filled(&session, record, records),
        ),
        ("4 MiB of bytes of a record", filled(&bytes, "ff ", most)),
    ]
}
