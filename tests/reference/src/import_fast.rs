//! The importer in one pass and without allocation, written for speed: what
//! the benchmark compares with.

use crate::import::{Imported, HOST_UNKNOWN, NAMES_BYTES, NAME_BYTES, NO_KEY, NO_NAME, NO_NUMBER};
use crate::layout::HOSTS;
use crate::numbers::ACCEPTED;

/// Bytes that a search looks at one by one, since most parts are short.
const NEAR: usize = 16;
/// Bytes that it looks at together after that.
const WIDE: usize = 32;

/// The same function as `import`.
pub fn import_fast(host: u32, names: &[u8], text: &[u8]) -> Imported {
    read(host, names, text).unwrap_or_else(Imported::refused)
}

fn read(host: u32, names: &[u8], text: &[u8]) -> Result<Imported, u32> {
    if host >= HOSTS as u32 {
        return Err(HOST_UNKNOWN);
    }
    let (name, rest) = take_name(text).ok_or(NO_NAME)?;
    let key = find_key(names, name).ok_or(NO_KEY)?;
    let (value, attributes) = take_number(rest).ok_or(NO_NUMBER)?;
    let (secure, http_only) = read_flags(attributes);
    let http = u32::from(!secure) << host;
    Ok(Imported {
        number: ACCEPTED,
        key,
        value,
        secure,
        http_only,
        readers: http | 1 << (HOSTS as u32 + host),
    })
}

/// The name without blanks at its ends, and what follows the equals sign.
fn take_name(text: &[u8]) -> Option<(&[u8], &[u8])> {
    let text = skip_blanks(text);
    let end = find(text, |byte| byte == b'=' || byte == b';');
    let (name, rest) = text.split_at(end);
    let [b'=', rest @ ..] = rest else {
        return None;
    };
    let name = drop_blanks(name);
    (!name.is_empty()).then_some((name, rest))
}

/// The lowest key of this name. All names are compared as numbers of 128 bits:
/// where the name is shorter, with one zero byte behind it.
fn find_key(names: &[u8], name: &[u8]) -> Option<u32> {
    let names: &[u8; NAMES_BYTES] = names.try_into().ok()?;
    let mut wanted = [0; NAME_BYTES];
    wanted.get_mut(..name.len())?.copy_from_slice(name);
    if name.contains(&0) {
        return None;
    }
    let wanted = u128::from_le_bytes(wanted);
    let unused = NAME_BYTES.saturating_sub(name.len() + 1);
    let used = u128::MAX >> (8 * unused);
    let (names, _) = names.as_chunks::<NAME_BYTES>();
    let is_wanted = |name: &[u8; NAME_BYTES]| u128::from_le_bytes(*name) & used == wanted;
    names.iter().position(is_wanted).map(|key| key as u32)
}

/// The number, and what follows it from the semicolon on.
fn take_number(text: &[u8]) -> Option<(u32, &[u8])> {
    let text = skip_blanks(text);
    let (mut number, mut digits) = (0_u64, 0);
    while let Some(digit @ b'0'..=b'9') = text.get(digits) {
        if digits == 10 {
            return None;
        }
        number = 10 * number + u64::from(digit - b'0');
        digits += 1;
    }
    let rest = skip_blanks(&text[digits..]);
    match rest {
        [] | [b';', ..] if digits > 0 => Some((u32::try_from(number).ok()?, rest)),
        _ => None,
    }
}

/// Whether Secure and HttpOnly are among the attributes. Where both were met,
/// the others do not matter.
fn read_flags(mut text: &[u8]) -> (bool, bool) {
    let (mut secure, mut http_only) = (false, false);
    while let [_, rest @ ..] = text {
        let rest = skip_blanks(rest);
        match rest.first() {
            Some(b'S' | b's') => secure = secure || is_named(rest, b"Secure"),
            Some(b'H' | b'h') => http_only = http_only || is_named(rest, b"HttpOnly"),
            _ => {}
        }
        if secure && http_only {
            break;
        }
        text = &rest[find(rest, |byte| byte == b';')..];
    }
    (secure, http_only)
}

/// The text begins with an attribute of this name.
#[inline(always)]
fn is_named<const LENGTH: usize>(text: &[u8], word: &[u8; LENGTH]) -> bool {
    match text.split_first_chunk::<LENGTH>() {
        Some((front, rest)) if word.eq_ignore_ascii_case(front) => {
            matches!(skip_blanks(rest), [] | [b';' | b'=', ..])
        }
        _ => false,
    }
}

#[inline(always)]
fn is_blank(byte: u8) -> bool {
    byte == b' ' || byte == b'\t'
}

#[inline(always)]
fn skip_blanks(text: &[u8]) -> &[u8] {
    &text[find(text, |byte| !is_blank(byte))..]
}

/// Takes blanks off the end.
#[inline(always)]
fn drop_blanks(text: &[u8]) -> &[u8] {
    let (_, chunks) = text.as_rchunks::<WIDE>();
    let is_blank_all =
        |chunk: &&[u8; WIDE]| chunk.iter().fold(true, |all, &byte| all & is_blank(byte));
    let blank = chunks.iter().rev().take_while(is_blank_all).count() * WIDE;
    let text = &text[..text.len() - blank];
    let last = text.iter().rposition(|&byte| !is_blank(byte));
    &text[..last.map_or(0, |last| last + 1)]
}

/// The place of the first byte that is wanted, or the length.
#[inline(always)]
fn find(text: &[u8], is_wanted: impl Fn(u8) -> bool) -> usize {
    let near = &text[..text.len().min(NEAR)];
    if let Some(place) = near.iter().position(|&byte| is_wanted(byte)) {
        return place;
    }
    let (chunks, _) = text[near.len()..].as_chunks::<WIDE>();
    // Without a way out in between, so that a chunk is a few instructions.
    let has_none =
        |chunk: &&[u8; WIDE]| !chunk.iter().fold(false, |any, &byte| any | is_wanted(byte));
    let passed = near.len() + chunks.iter().take_while(has_none).count() * WIDE;
    let place = text[passed..].iter().position(|&byte| is_wanted(byte));
    place.map_or(text.len(), |place| passed + place)
}
