//! The examples, and texts of random policies, with something changed.

use cases::{Random, Setting};
use zolherima_program::walk;

use super::make::word;
use crate::given::Walk;

const EXAMPLES: &[&[u8]] = &[
    include_bytes!("../../../../examples/canteen.policy"),
    include_bytes!("../../../../examples/naive.policy"),
    include_bytes!("../../../../examples/reach.policy"),
];

pub fn text(random: &Random) -> Vec<u8> {
    let mut text = match random.one_in(6) {
        true => shown(random),
        false => random.pick(EXAMPLES).to_vec(),
    };
    if random.one_in(6) {
        clauses(&mut text, random);
        return text;
    }
    for _ in 0..random.pick(&[0, 1, 1, 1, 2, 4, 16]) {
        if !text.is_empty() {
            change(&mut text, random);
        }
    }
    text
}

fn shown(random: &Random) -> Vec<u8> {
    let Setting {
        policy, scripts, ..
    } = Setting::random(random);
    let records = vec![vec![3, 0, 0], Vec::new()];
    let walk = Walk {
        policy,
        scripts,
        records,
    };
    let text = walk::text(&walk.bytes());
    text.expect("the policy is well formed").into_bytes()
}

fn change(text: &mut Vec<u8>, random: &Random) {
    let place = random.below(text.len());
    match random.below(13) {
        0 => text[place] ^= 1 << random.below(8),
        1 => text[place] = random.byte(),
        2 => text.insert(place, random.byte()),
        3 => drop(text.remove(place)),
        4 => text.truncate(place),
        5 => drop(text.drain(..place)),
        6 => lines(text, random),
        7 => lines(text, random),
        8 => clauses(text, random),
        _ => words(text, random),
    }
}

/// A line is dropped, comes twice, or changes places.
fn lines(text: &mut Vec<u8>, random: &Random) {
    let mut lines: Vec<&[u8]> = text.split_inclusive(|&byte| byte == b'\n').collect();
    let [one, other] = [random.below(lines.len()), random.below(lines.len())];
    match random.below(4) {
        0 => drop(lines.remove(one)),
        1 => lines.insert(other, lines[one]),
        2 => lines.swap(one, other),
        _ => lines.rotate_left(one),
    }
    *text = lines.concat();
}

/// Clauses that may be there, and make a policy that is not well formed.
const CLAUSES: &[&[u8]] = &[
    b"  readers nobody\n",
    b"  readers nobody\n  script readers everyone\n",
    b"  writers everyone\n  partner pay\n",
    b"  writers everyone\n",
];

/// A clause takes the place of another.
fn clauses(text: &mut Vec<u8>, random: &Random) {
    let mut lines: Vec<&[u8]> = text.split_inclusive(|&byte| byte == b'\n').collect();
    let clause = random.pick(CLAUSES);
    let word = clause[..9].trim_ascii();
    let is_such = |line: &[u8]| line.trim_ascii().starts_with(word);
    let such: Vec<usize> = (0..lines.len()).filter(|&at| is_such(lines[at])).collect();
    if !such.is_empty() {
        lines[random.pick(&such)] = clause;
        *text = lines.concat();
    }
}

/// A word is replaced by another of the text or of the language, by a huge number or by a long name.
fn words(text: &mut Vec<u8>, random: &Random) {
    let is_of_word = |byte: u8| !byte.is_ascii_whitespace() && byte != b',';
    let starts = (0..text.len())
        .filter(|&at| is_of_word(text[at]) && (at == 0 || !is_of_word(text[at - 1])));
    let starts: Vec<usize> = starts.collect();
    if starts.is_empty() {
        return;
    }
    let span = |start: usize| {
        let rest = text[start..].iter();
        start..start + rest.take_while(|&&byte| is_of_word(byte)).count()
    };
    let [one, other] = [(); 2].map(|()| span(random.pick(&starts)));
    let with = match random.below(8) {
        0 => vec![b'9'; random.pick(&[1, 5, 10, 11, 20, 400])],
        1 => vec![b'n'; random.pick(&[63, 64, 65, 500, 5_000])],
        2 => random.word().to_string().into_bytes(),
        3 => word(random).as_bytes().to_vec(),
        _ => text[other].to_vec(),
    };
    text.splice(one, with);
}
