//! The names of keys: 16 bytes for each, of which a name has those before the first zero byte.

use reference::{NAMES_BYTES, NAME_BYTES};

use crate::random::Random;

/// Names that cookies have. Two are those of attributes.
const COMMON: [&[u8]; 12] = [
    b"sid",
    b"id",
    b"a",
    b"lang",
    b"Theme",
    b"_ga",
    b"JSESSIONID",
    b"__Host-sid",
    b"Secure",
    b"httponly",
    b"my name",
    b"cl\xc3\xa9",
];

/// The names of all keys, of the length that they should have.
pub fn table(random: &Random) -> Vec<u8> {
    let relatives = relatives(random);
    let mut make: Box<dyn FnMut() -> Vec<u8>> = match random.below(8) {
        0 => Box::new(|| random.pick(&[b"".as_slice(), b"", b"\0sid"]).to_vec()),
        1 => Box::new(|| bytes(NAME_BYTES, random)),
        2..=4 => Box::new(|| relatives[random.below(relatives.len())].clone()),
        _ => Box::new(|| some_name(random)),
    };
    let mut names = Vec::new();
    for end in (NAME_BYTES..=NAMES_BYTES).step_by(NAME_BYTES) {
        names.extend(make().into_iter().take(NAME_BYTES));
        names.resize(end, 0);
    }
    names
}

/// The bytes of a key.
fn any_field<'a>(names: &'a [u8], random: &Random) -> &'a [u8] {
    let key = random.below(NAMES_BYTES / NAME_BYTES);
    &names[NAME_BYTES * key..][..NAME_BYTES]
}

/// The name that such bytes have.
pub fn name_in(field: &[u8]) -> &[u8] {
    field.split(|&byte| byte == 0).next().unwrap_or(field)
}

/// The name of a key that has one, or any name.
pub fn known(names: &[u8], random: &Random) -> Vec<u8> {
    let named: Vec<&[u8]> = names
        .chunks_exact(NAME_BYTES)
        .map(name_in)
        .filter(|name| !name.is_empty())
        .collect();
    match named.is_empty() {
        true => some_name(random),
        false => random.pick(&named).to_vec(),
    }
}

/// A name that is nearly that of a key, or one that has nothing to do with them.
pub fn unknown(names: &[u8], random: &Random) -> Vec<u8> {
    let name = known(names, random);
    match random.below(10) {
        0 => some_name(random),
        1 => any_field(names, random)[..random.within(1..=NAME_BYTES)].to_vec(),
        2 => name.into_iter().chain([0]).collect(),
        3 => behind(names, random),
        4 => name.into_iter().chain(letters(20, random)).collect(),
        _ => relative(&name, random),
    }
}

/// What stands behind the zero byte that ends the name of a key.
fn behind(names: &[u8], random: &Random) -> Vec<u8> {
    let field = any_field(names, random);
    let start = (name_in(field).len() + 1).min(NAME_BYTES);
    name_in(&field[start..]).to_vec()
}

/// Common, or random, of any length that a name may have.
fn some_name(random: &Random) -> Vec<u8> {
    let length = random.pick(&[1, 2, 15, 16, random.within(1..=NAME_BYTES)]);
    match random.below(16) {
        0..=7 => random.pick(&COMMON).to_vec(),
        8..=13 => letters(length, random),
        14 => Vec::new(),
        _ => bytes(length, random),
    }
}

/// Names that are like one name, as they may stand beside each other.
fn relatives(random: &Random) -> Vec<Vec<u8>> {
    let name = some_name(random);
    let mut all = vec![name.clone(), name.clone()];
    all.extend((0..6).map(|_| relative(&name, random)));
    all
}

/// A name like another: it may be longer than a name may be.
fn relative(name: &[u8], random: &Random) -> Vec<u8> {
    let end = random.below(name.len() + 1);
    match random.below(8) {
        0 => name[..end].to_vec(),
        1 => [name, &letters(1, random)].concat(),
        2 => [name, &[0], &letters(4, random)].concat(),
        3 => [&letters(random.below(3), random)[..], &[0], name].concat(),
        4 => [b" ", name].concat(),
        5 => [name, b"\t"].concat(),
        _ => other_case(name, random),
    }
}

/// The case of one letter, or of all, is another, where there are letters.
pub fn other_case(word: &[u8], random: &Random) -> Vec<u8> {
    let flipped = |byte: u8| match byte.is_ascii_alphabetic() {
        true => byte ^ 0x20,
        false => byte,
    };
    let one = random.below(word.len() + 1);
    let is_flipped = |at: usize| one == word.len() || one == at;
    let word = word.iter().enumerate();
    word.map(|(at, &byte)| if is_flipped(at) { flipped(byte) } else { byte })
        .collect()
}

pub fn letters(count: usize, random: &Random) -> Vec<u8> {
    let letter = |_| random.pick(b"abcdeSsIiDdXYZ_-7");
    (0..count).map(letter).collect()
}

pub fn bytes(count: usize, random: &Random) -> Vec<u8> {
    let mut bytes = vec![0; count];
    random.fill_bytes(&mut bytes);
    bytes
}

#[cfg(test)]
mod tests {
    use super::*;

    #[test]
    fn a_table_has_its_length_and_its_names_are_found_in_it() {
        let random = Random::new(1);
        for _ in 0..1000 {
            let names = table(&random);
            assert_eq!(names.len(), NAMES_BYTES);
            let name = known(&names, &random);
            let is_name = |field: &[u8]| name_in(field) == name;
            let any_named = names.chunks(NAME_BYTES).any(|field| field[0] != 0);
            assert_eq!(
                names.chunks(NAME_BYTES).any(is_name),
                any_named || name.is_empty()
            );
        }
    }

    #[test]
    fn a_name_ends_before_its_first_zero_byte() {
        assert_eq!(name_in(b"sid\0id\0"), b"sid");
        assert_eq!(name_in(b"sid"), b"sid");
        assert_eq!(name_in(b"\0sid"), b"");
        assert_eq!(name_in(b""), b"");
    }

    #[test]
    fn another_case_is_the_same_word() {
        let random = Random::new(1);
        for _ in 0..100 {
            let word = other_case(b"HttpOnly", &random);
            assert!(word.eq_ignore_ascii_case(b"HttpOnly"));
            assert_ne!(word, b"HttpOnly");
        }
    }
}
