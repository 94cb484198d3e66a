//! Bytes that are no text, and words of the language that make none.

use cases::Random;

/// What a line may be made of.
const WORDS: &[&str] = &[
    "host",
    "cookie",
    "url",
    "connection",
    "script",
    "session",
    "readers",
    "writers",
    "partner",
    "registers",
    "read",
    "write",
    "request",
    "skip",
    "picture",
    "end",
    "step",
    "load",
    "response",
    "redirect",
    "record",
    "always",
    "at",
    "entry",
    "everyone",
    "except",
    "for",
    "gives",
    "http",
    "https",
    "if",
    "into",
    "is",
    "key",
    "nobody",
    "number",
    "of",
    "on",
    "runs",
    "sets",
    "then",
    "to",
    ",",
    "=",
    "+",
    "#",
    "0",
    "1",
    "7",
    "8",
    "15",
    "16",
    "63",
    "64",
    "255",
    "256",
    "65535",
    "70000",
    "4294967295",
    "4294967296",
    "99999999999999999999999999",
    "00",
    "ff",
    "a",
    "b",
    "_",
    "a.b-c",
    "r0",
    "r3",
    "r4",
    "\t",
    "\r",
    "\u{a0}",
    "é",
    "\0",
    "-",
    "\"",
    "(",
    ")",
    "\u{202e}",
];

pub fn word(random: &Random) -> &'static str {
    random.pick(WORDS)
}

/// Of all values, or of few.
pub fn bytes(random: &Random) -> Vec<u8> {
    let mut text = vec![0; random.pick(&[0, 1, 3, 40, 400, 4_000])];
    random.fill_bytes(&mut text);
    let few = random.pick(&[
        &b"host a\n"[..],
        b"\n\r\t ,#",
        b"0123456789 \n",
        b"\xef\xbb\xbf\xff",
    ]);
    if random.one_in(2) {
        for byte in &mut text {
            *byte = few[usize::from(*byte) % few.len()];
        }
    }
    if random.one_in(4) {
        text.splice(0..0, *b"\xef\xbb\xbf");
    }
    text
}

/// Lines of the language's words, and sometimes a line that could stand there.
pub fn tokens(random: &Random) -> Vec<u8> {
    let mut text = Vec::new();
    for _ in 0..random.pick(&[1, 5, 30, 200]) {
        let line = match random.one_in(2) {
            true => random.pick(LINES).to_string(),
            false => scrambled(random),
        };
        text.extend_from_slice(line.as_bytes());
        text.extend_from_slice(
            random
                .pick(&["\n", "\n", "\n", "\r\n", " ", ",\n"])
                .as_bytes(),
        );
    }
    text
}

fn scrambled(random: &Random) -> String {
    let words: Vec<&str> = (0..random.within(1..=8)).map(|_| word(random)).collect();
    words.join(random.pick(&[" ", " ", "  ", ""]))
}

const LINES: &[&str] = &[
    "host a",
    "host b always https",
    "host c number 15",
    "cookie s of a",
    "cookie t of b number 7",
    "url u at https a",
    "url v at http b entry",
    "url w at https b number 63",
    "connection c",
    "connection d number 31",
    "readers a, b",
    "readers everyone",
    "readers everyone except http b",
    "writers https a",
    "writers nobody",
    "script readers http a",
    "partner w",
    "script s for u",
    "script t number 15",
    "registers x, y",
    "r0 = 65535",
    "r0 = r1 + r2",
    "read s into r0",
    "write r0 to key 3",
    "request u on c then t",
    "skip 3 if r0 is 0",
    "picture v on d",
    "step 9 8 7 6",
    "end",
    "session",
    "load u on c",
    "response u on c runs s sets s = 7",
    "response u on c gives 4294967295",
    "picture u on c sets key 0 = 1",
    "redirect u on c to v",
    "record 03 ff",
    "record",
];
