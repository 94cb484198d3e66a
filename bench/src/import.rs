//! What the reading of a Set-Cookie line costs, beside `import_fast`, and how it grows with the line.

use std::hint::black_box;
use std::mem;
use std::time::Instant;

use cases::line::{long, Given, Line};
use cases::{names, Random};
use zolherima::cookie;

use crate::growth::Growth;
use crate::timing::{take_turns, Times, SPARE};

/// Lines that are read in turn.
struct Workload {
    name: &'static str,
    lines: Vec<Given>,
}

/// Nanoseconds for one line.
pub struct Row {
    pub name: &'static str,
    pub times: Times,
    /// How many bytes a line has, in the mean.
    pub bytes: f64,
}

const SEED: u64 = 2026;
/// As many random lines are read in turn: the processor would come to know few of them by heart.
const RANDOM_LINES: u64 = 256;
const HOST: u32 = 1;
const LONG: usize = 64 << 10;
/// A round reads about so many bytes, but no line more often than it may.
const BYTES: usize = 64 << 10;
const MOST_READINGS: usize = 1000;

type Import = fn(&Given, &[u8]);

fn proved(given: &Given, text: &[u8]) {
    let _ = black_box(cookie::import(given.host, &given.names, text));
}

fn by_hand(given: &Given, text: &[u8]) {
    black_box(reference::import_fast(given.host, &given.names, text));
}

pub fn all(rounds: usize) -> Vec<Row> {
    workloads().iter().map(|it| row(it, rounds)).collect()
}

/// A line that costs much for its length, by its name: what it begins with, what it is filled with, and how it ends.
type Shape = (&'static str, [&'static [u8]; 3]);

const SHAPES: [Shape; 4] = [
    ("one long attribute", [b"sid=7;", b"x", b""]),
    ("semicolons", [b"sid=7", b";", b""]),
    ("short attributes", [b"sid=7", b"; a=b", b""]),
    ("blanks behind the value", [b"sid=7", b" ", b"; Secure"]),
];

/// Of so many bytes.
fn shaped([front, piece, back]: [&[u8]; 3], bytes: usize) -> Given {
    of_host(HOST, long(front, piece, back, bytes))
}

fn workloads() -> Vec<Workload> {
    let one = |name, given| Workload {
        name,
        lines: vec![given],
    };
    let session = b"sid=1234567890; Path=/; Secure; HttpOnly".to_vec();
    let unknown = b"SID=1234567890; Path=/; Secure; HttpOnly".to_vec();
    let mut all = vec![
        one("a session's cookie", of_host(HOST, session.clone())),
        Workload {
            name: "lines that are accepted",
            lines: (0..RANDOM_LINES).map(accepted).collect(),
        },
        one("refused at once: a host above 15", of_host(16, session)),
        one(
            "refused: none of the names is the cookie's",
            of_host(HOST, unknown),
        ),
    ];
    all.extend(SHAPES.map(|(name, shape)| one(name, shaped(shape, LONG))));
    all
}

/// Of a host whose keys all have names.
fn of_host(host: u32, text: Vec<u8>) -> Given {
    let list: [&[u8]; 8] = [
        b"lang", b"theme", b"id", b"sid", b"cart", b"_ga", b"seen", b"token",
    ];
    Given {
        host,
        names: cookie::names(&list).expect("short names").to_vec(),
        text,
    }
}

/// A random line that is accepted.
fn accepted(case: u64) -> Given {
    let random = Random::of_case(SEED, case);
    let line = || {
        let names = names::table(&random);
        let text = Line::good(&names, &random).text();
        Given {
            host: HOST,
            names,
            text,
        }
    };
    let is_accepted = |it: &Given| cookie::import(it.host, &it.names, &it.text).is_ok();
    let mut lines = std::iter::repeat_with(line);
    lines.find(is_accepted).expect("most lines are accepted")
}

fn row(workload: &Workload, rounds: usize) -> Row {
    let Workload { name, lines } = workload;
    Row {
        name,
        times: measure(lines, rounds),
        bytes: bytes_of(lines) as f64 / lines.len() as f64,
    }
}

/// By the length of the line, for each shape.
pub fn growth(rounds: usize) -> Vec<Growth> {
    let grows = |(name, shape): Shape| Growth {
        by: name,
        points: [1, 4, 16, 64]
            .map(|kib| kib << 10)
            .map(|bytes| (bytes, measure(&[shaped(shape, bytes)], rounds)))
            .into(),
    };
    SHAPES.map(grows).into()
}

fn bytes_of(lines: &[Given]) -> usize {
    lines.iter().map(|given| given.text.len()).sum()
}

fn measure(lines: &[Given], rounds: usize) -> Times {
    let mut room = vec![0; bytes_of(lines) + SPARE];
    take_turns(rounds, [proved as Import, by_hand], |place, import| {
        time(lines, import, &mut room[place..])
    })
}

/// The mean over the lines.
fn time(lines: &[Given], import: Import, room: &mut [u8]) -> f64 {
    let lent = lay(lines, room);
    let readings = (BYTES / bytes_of(lines)).clamp(1, MOST_READINGS);
    let start = Instant::now();
    for _ in 0..readings {
        for (given, text) in &lent {
            import(given, text);
        }
    }
    start.elapsed().as_nanos() as f64 / (readings * lines.len()) as f64
}

/// Puts the lines, one behind another, where they are read.
fn lay<'a>(lines: &'a [Given], mut room: &'a mut [u8]) -> Vec<(&'a Given, &'a [u8])> {
    let mut lent = Vec::new();
    for given in lines {
        let (text, rest) = mem::take(&mut room).split_at_mut(given.text.len());
        text.copy_from_slice(&given.text);
        lent.push((given, &*text));
        room = rest;
    }
    lent
}
