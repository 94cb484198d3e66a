//! Random calls of the importer: lines that are good, nearly good, damaged, or junk.

#![allow(dead_code)] // no file of tests needs all of it

use cases::Random;

/// What the importer is given.
#[derive(Clone, Debug)]
pub struct Call {
    pub host: u32,
    pub names: Vec<u8>,
    pub text: Vec<u8>,
}

/// Bytes that are likely in a line.
pub const LIKELY: &[u8] = b"sid=7; \tSecureHttpOnly0123456789\r\0\xff=";

/// Names that are alike: in another case, one the beginning of another, with blanks, zero bytes or bytes above 127.
const NAMES: [&[u8]; 24] = [
    b"sid",
    b"sid",
    b"Sid",
    b"SID",
    b"si",
    b"s",
    b"side",
    b"s id",
    b"s\tid",
    b" sid",
    b"sid\t",
    b"s\xefd",
    b"S\xefd",
    b"\xff",
    b"Secure",
    b"httponly",
    b"fifteen_letters",
    b"sixteen_letters_",
    b"Sixteen_letters_",
    b"sid\0",
    b"sid\0more",
    b"\0sid",
    b"abc\0sid",
    b"",
];

const VALUES: [&[u8]; 24] = [
    b"7",
    b"0",
    b"00",
    b"07",
    b"0000000000",
    b"0000000007",
    b"00000000007",
    b"4294967295",
    b"4294967296",
    b"04294967295",
    b"9999999999",
    b"10000000000",
    b"18446744073709551617",
    b"184467440737095516177",
    b"+7",
    b"-7",
    b"7 7",
    b"7=7",
    b"7\r",
    b"7\0",
    b"/",
    b":7",
    b"\xb7",
    b"",
];

const ATTRIBUTES: [&[u8]; 8] = [
    b"Path=/",
    b"Domain=canteen.example",
    b"Max-Age=7",
    b"Expires=Wed, 09 Jun 2027 10:18:14 GMT",
    b"SameSite=Secure",
    b"x = HTTPONLY ",
    b"=Secure",
    b"",
];

impl Call {
    pub fn random(random: &Random) -> Call {
        let names = random_names(random);
        let mut text = random_text(&names, random);
        if random.one_in(3) {
            for _ in 0..random.within(1..=3) {
                damage(&mut text, random);
            }
        }
        Call {
            host: random_host(random),
            names,
            text,
        }
    }
}

fn random_host(random: &Random) -> u32 {
    let host = random.below(16) as u32;
    let above = random.pick(&[16, 17, 31, 32, 33, 256, u32::MAX, random.word()]);
    random.weighted(&[(20, host), (4, 0), (4, 15), (2, above)])
}

/// Eight names of 16 bytes, few of them different; rarely of another length.
fn random_names(random: &Random) -> Vec<u8> {
    let few = [(); 3].map(|()| random.pick(&NAMES));
    let is_empty = random.one_in(30);
    let mut names = Vec::new();
    for _ in 0..8 {
        let name = match random.below(4) {
            _ if is_empty => b"",
            0 => random.pick(&NAMES),
            1 => b"",
            _ => random.pick(&few),
        };
        let mut bytes = [0; 16];
        bytes[..name.len()].copy_from_slice(name);
        names.extend(bytes);
    }
    if random.one_in(16) {
        let length = random.pick(&[0, 0, 1, 16, 112, 127, 129, 144, 256, random.below(300)]);
        names.resize(length, b's');
    }
    names
}

fn random_text(names: &[u8], random: &Random) -> Vec<u8> {
    if random.one_in(12) {
        let length = random.below(40);
        return (0..length).map(|_| random.pick(LIKELY)).collect();
    }
    let mut text = random_pair(names, random);
    for _ in 0..random.pick(&[0, 1, 2, 3, random.below(9)]) {
        text.push(b';');
        text.extend(random_attribute(random));
    }
    if random.one_in(12) {
        text.push(b'\r');
    }
    text
}

/// A name of a key, or one that is like it, and a value.
fn random_pair(names: &[u8], random: &Random) -> Vec<u8> {
    let key_names = names
        .chunks(16)
        .map(|bytes| bytes.split(|&byte| byte == 0).next().unwrap());
    let mut key_names: Vec<_> = key_names.filter(|name| !name.is_empty()).collect();
    if key_names.is_empty() {
        key_names.push(b"sid");
    }
    let mut name = random.pick(&key_names).to_vec();
    match random.below(12) {
        0 => name = random.pick(&NAMES).to_vec(),
        1 => name = random.pick(&NAMES[..8]).to_vec(),
        2 => name.push(random.pick(b"_xX\0\xff")),
        3 => change_case(&mut name, random),
        _ => {}
    }
    let parts = match random.below(24) {
        0 => [&[], &name[..]].map(|part: &[u8]| blanks_around(part, random)),
        _ => [&name[..], b"="].map(|part| blanks_around(part, random)),
    };
    let value = blanks_around(&random_value(random), random);
    [&parts.concat()[..], &value].concat()
}

fn random_value(random: &Random) -> Vec<u8> {
    let long = (0..random.below(26)).map(|_| b'0' + random.byte_below(10));
    match random.below(8) {
        0 | 1 => random.pick(&VALUES).to_vec(),
        2 => long.collect(),
        3 => (random.bits() >> 30).to_string().into(),
        4 => format!("{:0>1$}", random.byte(), random.within(1..=11)).into(),
        _ => random.word().to_string().into(),
    }
}

fn random_attribute(random: &Random) -> Vec<u8> {
    if random.one_in(4) {
        return blanks_around(random.pick(&ATTRIBUTES), random);
    }
    let mut name = random.pick(&[&b"Secure"[..], b"HttpOnly"]).to_vec();
    if random.one_in(3) {
        change_case(&mut name, random);
    }
    if random.one_in(3) {
        miss_narrowly(&mut name, random);
    }
    let mut attribute = blanks_around(&name, random);
    if random.one_in(4) {
        attribute.push(b'=');
        attribute.extend(random.pick(&[&b""[..], b"false", b" ", b"a=b", b"Secure"]));
    }
    attribute
}

/// Makes a word one that is no longer it.
fn miss_narrowly(word: &mut Vec<u8>, random: &Random) {
    let place = random.below(word.len());
    match random.below(9) {
        0 => word.push(random.pick(b"dsyD_")),
        1 => word.truncate(word.len() - 1),
        2 => word.insert(0, random.pick(b"S_\xc5\0\r")),
        3 => word[place] = random.byte(),
        4 => word[place] ^= 0x80,
        5 => word.insert(place.max(1), random.pick(b" \t")),
        6 => word.extend(random.pick(&[&b" x"[..], b"\tSecure", b" HttpOnly"])),
        7 => word[place] ^= 1 << random.below(8),
        _ => word.push(random.pick(b"\r\0\n\x0b\x0c\xa0")),
    }
}

fn change_case(word: &mut [u8], random: &Random) {
    for byte in word {
        if byte.is_ascii_alphabetic() && random.one_in(2) {
            *byte ^= 0x20;
        }
    }
}

/// Mostly without blanks, else with up to three at either end.
fn blanks_around(part: &[u8], random: &Random) -> Vec<u8> {
    let blanks = || {
        let count = random.pick(&[0, 0, 0, random.below(4)]);
        (0..count).map(|_| random.pick(b"  \t"))
    };
    blanks()
        .chain(part.iter().copied())
        .chain(blanks())
        .collect()
}

/// One byte changed, dropped or inserted, or an end cut off.
pub fn damage(text: &mut Vec<u8>, random: &Random) {
    let byte = random.pick(&[random.pick(LIKELY), random.pick(LIKELY), random.byte()]);
    let place = random.below(text.len() + 1);
    match random.below(6) {
        0 | 1 if place < text.len() => text[place] = byte,
        2 if place < text.len() => {
            text.remove(place);
        }
        3 if random.one_in(4) => text.truncate(place),
        4 if random.one_in(4) => {
            text.drain(..place);
        }
        _ => text.insert(place, byte),
    }
}
