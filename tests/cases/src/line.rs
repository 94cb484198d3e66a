//! Set-Cookie lines: such as are accepted, such as nearly are, and anything, with the names of keys that they are read by.

use crate::names::{self, letters, other_case};
use crate::random::Random;

/// What the importer is given.
#[derive(Clone, Debug, PartialEq, Eq)]
pub struct Given {
    pub host: u32,
    pub names: Vec<u8>,
    pub text: Vec<u8>,
}

/// A line in its parts: the blanks belong to them, and neither equals sign nor semicolons.
#[derive(Clone, Debug)]
pub struct Line {
    pub name: Vec<u8>,
    pub value: Vec<u8>,
    pub attributes: Vec<Vec<u8>>,
}

/// The attributes that are told.
const FLAGS: [&[u8]; 2] = [b"Secure", b"HttpOnly"];

/// Attributes that are not, as they are met and as nobody would write them.
const OTHERS: [&[u8]; 20] = [
    b"Path=/",
    b" Path=/",
    b" Domain=a.example",
    b" Max-Age=0",
    b" SameSite=Lax",
    b" Partitioned",
    b" Expires=Thu, 01 Jan 1970 00:00:00 GMT",
    b"",
    b"",
    b" ",
    b"\t ",
    b"=",
    b"=Secure",
    b" x = HttpOnly ",
    b"Path=Secure",
    b"caf\xc3\xa9=1",
    b"\xff",
    b"sid=8",
    b"\r",
    b"Path=/\r",
];

/// A host that there is, but for few.
pub fn host(random: &Random) -> u32 {
    match random.below(16) {
        0 => any_host(random),
        1 => random.pick(&[0, 15]),
        _ => random.below(16) as u32,
    }
}

/// A host that there is, just not, or by far not.
pub fn any_host(random: &Random) -> u32 {
    let high = 1 << random.within(4..=31);
    random.pick(&[
        random.below(16) as u32,
        16,
        17,
        31,
        32,
        high,
        high | random.below(16) as u32,
        u32::MAX,
        random.word(),
    ])
}

impl Line {
    /// One that is accepted, if any of the names can be met.
    pub fn good(names: &[u8], random: &Random) -> Line {
        Line {
            name: padded(&names::known(names, random), random),
            value: padded(&number(random), random),
            attributes: attributes(random),
        }
    }

    /// One whose name is nearly that of a key, or has nothing to do with them.
    pub fn with_unknown_name(names: &[u8], random: &Random) -> Line {
        Line {
            name: padded(&names::unknown(names, random), random),
            ..Line::some(names, random)
        }
    }

    pub fn without_number(names: &[u8], random: &Random) -> Line {
        Line {
            value: padded(&no_number(random), random),
            ..Line::good(names, random)
        }
    }

    /// Mostly good, and now and then with a value that is no number.
    pub fn some(names: &[u8], random: &Random) -> Line {
        match random.one_in(4) {
            true => Line::without_number(names, random),
            false => Line::good(names, random),
        }
    }

    /// A good pair with many attributes, most of them nearly Secure or HttpOnly.
    pub fn with_attributes(names: &[u8], random: &Random) -> Line {
        let attribute = |_| match random.below(8) {
            0 => other(random),
            1 => flag(random),
            _ => near_flag(random),
        };
        Line {
            attributes: (0..random.within(1..=8)).map(attribute).collect(),
            ..Line::good(names, random)
        }
    }

    /// As it is written.
    pub fn text(&self) -> Vec<u8> {
        let mut text = [&self.name[..], b"=", &self.value].concat();
        for attribute in &self.attributes {
            text.push(b';');
            text.extend_from_slice(attribute);
        }
        text
    }
}

/// A line whose pair has no name: no equals sign, or nothing but blanks before it.
pub fn without_name(names: &[u8], random: &Random) -> Vec<u8> {
    let line = Line::some(names, random);
    let nameless = Line {
        name: blanks(random),
        ..line.clone()
    };
    let mut text = line.text();
    match random.below(6) {
        0 => Vec::new(),
        1 => {
            text.retain(|&byte| byte != b'=');
            text
        }
        2 => [&blanks(random)[..], b";", &text].concat(),
        3 => [&line.name[..], b";", &text].concat(),
        _ => nameless.text(),
    }
}

/// A line of any of the sorts above.
pub fn any(names: &[u8], random: &Random) -> Vec<u8> {
    match random.below(16) {
        0 => without_name(names, random),
        1 => Line::with_unknown_name(names, random).text(),
        2 => Line::without_number(names, random).text(),
        3 => pieces(names, random),
        4 => bytes(random.below(24), random),
        5..=7 => Line::with_attributes(names, random).text(),
        _ => Line::good(names, random).text(),
    }
}

/// A line of so many bytes: a front, then a piece over and over, of which the last may be cut, and an end.
pub fn long(front: &[u8], piece: &[u8], back: &[u8], bytes: usize) -> Vec<u8> {
    let filled = bytes.saturating_sub(front.len() + back.len());
    let pieces = piece.iter().copied().cycle().take(filled);
    let mut line = front.to_vec();
    line.extend(pieces);
    line.extend_from_slice(back);
    line
}

/// What a line is made of, in any order.
pub fn pieces(names: &[u8], random: &Random) -> Vec<u8> {
    let piece = |_| match random.below(12) {
        0..=2 => b";".to_vec(),
        3 | 4 => b"=".to_vec(),
        5 | 6 => random
            .pick(&[b" ".as_slice(), b"\t", b"\r", b"\n", b"\0"])
            .to_vec(),
        7 => names::known(names, random),
        8 => number(random),
        9 => flag(random),
        10 => near_flag(random),
        _ => random.pick(&OTHERS).to_vec(),
    };
    let pieces = (0..random.below(12)).flat_map(piece);
    match random.one_in(2) {
        true => pieces.collect(),
        false => [names::known(names, random), b"=7".to_vec()]
            .concat()
            .into_iter()
            .chain(pieces)
            .collect(),
    }
}

/// Of all values, or of few, which make a pair now and then.
pub fn bytes(count: usize, random: &Random) -> Vec<u8> {
    match random.below(3) {
        0 => names::bytes(count, random),
        1 => (0..count).map(|_| random.pick(b"=;=; \ta7")).collect(),
        _ => (0..count)
            .map(|_| random.pick(b"=; \tsid07\r\n\0\x7f\x80\xff"))
            .collect(),
    }
}

/// Bytes that change what a line says.
pub fn telling_byte(random: &Random) -> u8 {
    match random.one_in(4) {
        true => random.byte(),
        false => random.pick(b"=; \t0917aSs\r\n\0\x0b\xa0"),
    }
}

/// Mostly none.
fn blanks(random: &Random) -> Vec<u8> {
    let blank = |_| random.pick(b" \t");
    match random.below(8) {
        0 => vec![b' '],
        1 => vec![b'\t'],
        2 => (0..random.within(2..=4)).map(blank).collect(),
        3 if random.one_in(16) => (0..random.within(5..=300)).map(blank).collect(),
        _ => Vec::new(),
    }
}

fn padded(text: &[u8], random: &Random) -> Vec<u8> {
    [&blanks(random), text, &blanks(random)].concat()
}

/// One to ten digits that make at most 4,294,967,295.
pub fn number(random: &Random) -> Vec<u8> {
    let most = u32::MAX;
    let bits = random.word() >> random.below(32);
    let number = random.pick(&[0, 7, bits, bits, bits, most, most - bits % 16]);
    let digits = number.to_string();
    match random.below(8) {
        0 => format!("{number:010}"),
        1 => format!("{number:0width$}", width = random.within(1..=10)),
        _ => digits,
    }
    .into()
}

/// What is no number: too large, too long, empty, or with a byte that is no digit.
pub fn no_number(random: &Random) -> Vec<u8> {
    let number = number(random);
    let digits = |count| {
        (0..count)
            .map(|_| random.pick(b"0123456789"))
            .collect::<Vec<u8>>()
    };
    match random.below(12) {
        0 => b"4294967296".to_vec(),
        1 => b"9999999999".to_vec(),
        2 => random
            .within(u32::MAX as usize + 1..=9_999_999_999)
            .to_string()
            .into(),
        3 => Vec::new(),
        4 => [vec![b'0'; 11 - number.len()], number].concat(),
        5 => digits(random.within(11..=40)),
        6 => [&[random.pick(b"+-")], &number[..]].concat(),
        7 => [&number[..], &[random.pick(b" \t=")], &digits(2)].concat(),
        8 => [&number[..], &[random.pick(b"\r\0\n/:x\"")]].concat(),
        9 => [&number[..], &[random.byte()], &digits(1)].concat(),
        10 => [b"\"", &number[..], b"\""].concat(),
        _ => letters(random.within(1..=12), random),
    }
}

/// None, few or many.
fn attributes(random: &Random) -> Vec<Vec<u8>> {
    let most = random.pick(&[0, 2, 2, 6]);
    let attribute = |_| match random.below(8) {
        0..=3 => flag(random),
        4 => near_flag(random),
        _ => other(random),
    };
    (0..random.within(0..=most)).map(attribute).collect()
}

/// Secure or HttpOnly, in any case of its letters, with blanks around it and anything after an equals sign.
pub fn flag(random: &Random) -> Vec<u8> {
    let word = random.pick(&FLAGS);
    let word = match random.one_in(2) {
        true => word.to_vec(),
        false => other_case(word, random),
    };
    let value: &[u8] = random.pick(&[b"=", b"=false", b"=a=b", b"= ", b"=\r"]);
    match random.below(6) {
        0 | 1 => word,
        2 => [word, value.to_vec()].concat(),
        3 => [padded(&word, random), value.to_vec()].concat(),
        _ => padded(&word, random),
    }
}

/// An attribute whose name is Secure or HttpOnly but for a little.
pub fn near_flag(random: &Random) -> Vec<u8> {
    let word = other_case(random.pick(&FLAGS), random);
    let at = random.below(word.len());
    let (front, back) = word.split_at(at);
    let near = match random.below(10) {
        0 => [&word[..], &letters(1, random)].concat(),
        1 => word[..word.len() - 1].to_vec(),
        2 => [&[random.pick(b"xS\"=-")], &word[..]].concat(),
        3 => [front, &[random.byte()], &back[1..]].concat(),
        4 => high_bits(&word, random),
        5 => [front, &[random.pick(b" \t")], back].concat(),
        6 => [&word[..], &[random.pick(b" \t")], b"x"].concat(),
        7 => [&word[..], &[random.pick(b"\r\0\n\x0b\x0c")]].concat(),
        8 => [b"x=", &word[..]].concat(),
        _ => word[1..].to_vec(),
    };
    padded(&near, random)
}

/// The highest bit stands in one byte or in all.
fn high_bits(word: &[u8], random: &Random) -> Vec<u8> {
    let one = random.below(word.len() + 1);
    let is_high = |at: usize| one == word.len() || one == at;
    let word = word.iter().enumerate();
    word.map(|(at, &byte)| byte | u8::from(is_high(at)) << 7)
        .collect()
}

fn other(random: &Random) -> Vec<u8> {
    match random.one_in(4) {
        true => padded(&letters(random.within(1..=12), random), random),
        false => random.pick(&OTHERS).to_vec(),
    }
}

#[cfg(test)]
mod tests {
    use super::*;
    use reference::{import, NO_NAME, NO_NUMBER};

    /// All keys have the name sid, so that what is wanted of a line can be had.
    fn names() -> Vec<u8> {
        b"sid\0\0\0\0\0\0\0\0\0\0\0\0\0".repeat(8)
    }

    fn number_of(text: &[u8]) -> u32 {
        import(0, &names(), text).number
    }

    #[test]
    fn lines_are_what_they_are_called() {
        let random = Random::new(1);
        for _ in 0..10_000 {
            let good = Line::good(&names(), &random).text();
            assert_eq!(number_of(&good), 0, "{}", good.escape_ascii());
            let nearly = Line::with_attributes(&names(), &random).text();
            assert_eq!(number_of(&nearly), 0, "{}", nearly.escape_ascii());
            let nameless = without_name(&names(), &random);
            assert_eq!(number_of(&nameless), NO_NAME, "{}", nameless.escape_ascii());
        }
    }

    /// A byte between digits may be a digit: then it is a number after all.
    #[test]
    fn nearly_all_that_is_no_number_is_none() {
        let random = Random::new(1);
        let wrong = |_| number_of(&Line::without_number(&names(), &random).text());
        let refused = (0..10_000).map(wrong).filter(|&number| number == NO_NUMBER);
        assert!(refused.count() > 9_000);
    }

    #[test]
    fn long_lines_have_the_length_that_is_asked_for() {
        assert_eq!(long(b"sid=7", b";ab", b";c", 12), b"sid=7;ab;a;c");
        assert_eq!(long(b"", b" ", b"", 3), b"   ");
        assert_eq!(long(b"sid=7", b";", b"", 5), b"sid=7");
    }
}
