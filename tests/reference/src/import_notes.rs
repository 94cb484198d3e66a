//! What is particular about a line. For the events alone: nothing is decided
//! here.

use crate::import::{
    find_key, key_names, read_number, read_pair, Given, Imported, HOST_UNKNOWN, NAMES_BYTES,
    NAME_BYTES, NO_KEY, NO_NAME,
};
use crate::import_attribute_notes::{self, has_flag, is_word};
use crate::import_line::{cut, trim, Line, Pair};
use crate::import_seen::ImportEvent::{self, *};
use crate::import_seen::ImportSeen;

/// Notes what is particular about a line that is turned away with this number.
pub fn note_refused(number: u32, given: &Given, seen: &mut ImportSeen) {
    match number {
        HOST_UNKNOWN => note_host(given, seen),
        NO_NAME => note_no_name(given, seen),
        NO_KEY => note_no_key(given, seen),
        _ => note_no_number(given, seen),
    }
}

/// Notes what is particular about a line that is accepted.
pub fn note_accepted(imported: &Imported, given: &Given, seen: &mut ImportSeen) {
    seen.note(match (imported.secure, imported.http_only) {
        (false, false) => Neither,
        (true, false) => Secure,
        (false, true) => HttpOnly,
        (true, true) => SecureHttpOnly,
    });
    note_all(
        seen,
        &[
            (PairAlone, given.line.attributes.is_empty()),
            (Host0, given.host == 0),
            (Host15, given.host == 15),
        ],
    );
    let pair = pair_of(&given.line);
    note_key(imported.key as usize, given.names, pair.name.trimmed, seen);
    note_name(&pair, &given.line, seen);
    note_value(&pair, imported.value, seen);
    import_attribute_notes::note(&given.line, seen);
}

/// Notes each event that occurs.
pub fn note_all(seen: &mut ImportSeen, events: &[(ImportEvent, bool)]) {
    seen.note_all(events);
}

/// The pair of a line that got past 14.
fn pair_of<'a>(line: &Line<'a>) -> Pair<'a> {
    read_pair(line.pair).expect("the pair has a name")
}

pub fn has_high(bytes: &[u8]) -> bool {
    bytes.iter().any(|&byte| byte > 127)
}

fn has_blank(bytes: &[u8]) -> bool {
    bytes.contains(&b' ') || bytes.contains(&b'\t')
}

/// It is the beginning of the other, which is longer.
fn begins(name: &[u8], other: &[u8]) -> bool {
    other.len() > name.len() && other.starts_with(name)
}

/// It stands behind the zero byte that ends a key's name, and fills the rest
/// or ends before another zero byte.
fn stands_behind(name: &[u8], key_bytes: &[u8]) -> bool {
    let (_, behind) = cut(key_bytes, 0);
    behind.is_some_and(|behind| cut(behind, 0).0 == name)
}

fn note_host(given: &Given, seen: &mut ImportSeen) {
    let pair = read_pair(given.line.pair);
    let is_alone = pair.is_ok_and(|pair| {
        find_key(given.names, pair.name.trimmed).is_ok() && read_number(pair.value.trimmed).is_ok()
    });
    note_all(
        seen,
        &[
            (HostFirstAbove, given.host == 16),
            (HostShift, given.host > 31),
            (HostAlone, is_alone),
            (HostFlag, has_flag(&given.line)),
            (HostThenName, pair.is_err()),
        ],
    );
}

fn note_no_name(given: &Given, seen: &mut ImportSeen) {
    let Line { pair, attributes } = &given.line;
    let name = Pair::read(pair).map(|pair| pair.name.whole);
    let attribute_equals = attributes.iter().any(|other| other.value.is_some());
    note_all(
        seen,
        &[
            (NoEqualsText, given.text.is_empty()),
            (NoEqualsEmpty, pair.is_empty() && !given.text.is_empty()),
            (NoEqualsBlank, !pair.is_empty() && trim(pair).is_empty()),
            (NoEqualsAttribute, name.is_none() && attribute_equals),
            (NameNothing, name.is_some_and(<[u8]>::is_empty)),
            (NameBlank, name.is_some_and(|name| !name.is_empty())),
            (NoNameFlag, has_flag(&given.line)),
            (NoNameThenNames, given.names.len() != NAMES_BYTES),
        ],
    );
}

fn note_no_key(given: &Given, seen: &mut ImportSeen) {
    let pair = pair_of(&given.line);
    note_all(
        seen,
        &[
            (NoKeyFlag, has_flag(&given.line)),
            (NoKeyThenNumber, read_number(pair.value.trimmed).is_err()),
        ],
    );
    match given.names.len() == NAMES_BYTES {
        true => note_unlike_names(given.names, pair.name.trimmed, seen),
        false => note_names_length(given.names, pair.name.trimmed, seen),
    }
}

fn note_names_length(names: &[u8], name: &[u8], seen: &mut ImportSeen) {
    note_all(
        seen,
        &[
            (NamesNone, names.is_empty()),
            (NamesShort, (1..NAMES_BYTES).contains(&names.len())),
            (NamesLong, names.len() > NAMES_BYTES),
            (NamesLengthEqual, key_names(names).any(|key| key == name)),
        ],
    );
}

fn note_unlike_names(names: &[u8], name: &[u8], seen: &mut ImportSeen) {
    let any_name = |is: &dyn Fn(&[u8]) -> bool| key_names(names).any(is);
    let any_bytes = |is: &dyn Fn(&[u8]) -> bool| names.chunks(NAME_BYTES).any(is);
    let begins_name = |key: &[u8]| !key.is_empty() && begins(key, name);
    let is_padded = |key_bytes: &[u8]| name.contains(&0) && key_bytes.starts_with(name);
    note_all(
        seen,
        &[
            (NoKeyEmpty, key_names(names).all(<[u8]>::is_empty)),
            (NoKeyCase, any_name(&|key| key.eq_ignore_ascii_case(name))),
            (
                NoKeyBegins,
                any_name(&|key| begins_name(key) && key.len() < NAME_BYTES),
            ),
            (
                NoKeyBegins16,
                any_name(&|key| begins_name(key) && key.len() == NAME_BYTES),
            ),
            (NoKeyBegun, any_name(&|key| begins(name, key))),
            (NoKeyBlank, any_name(&|key| trim(key) == name)),
            (NoKeyPadded, any_bytes(&is_padded)),
            (NoKeyBehind, any_bytes(&|bytes| stands_behind(name, bytes))),
            (NoKeyHigh, has_high(name)),
        ],
    );
}

fn note_no_number(given: &Given, seen: &mut ImportSeen) {
    let value = pair_of(&given.line).value;
    note_all(
        seen,
        &[
            (ValueNothing, value.whole.is_empty()),
            (
                ValueBlank,
                !value.whole.is_empty() && value.trimmed.is_empty(),
            ),
            (NoNumberFlag, has_flag(&given.line)),
        ],
    );
    note_digits(value.trimmed, seen);
    note_no_digit(value.trimmed, seen);
}

/// What is particular about digits that make no number.
fn note_digits(value: &[u8], seen: &mut ImportSeen) {
    if !value.iter().all(u8::is_ascii_digit) {
        return;
    }
    let zeros = value.iter().take_while(|&&digit| digit == b'0').count();
    let is_number = |digits: &[u8]| digits.is_empty() || read_number(digits).is_ok();
    note_all(
        seen,
        &[
            (ValueLongZeros, zeros > 0 && is_number(&value[zeros..])),
            (ValueLongest, value.len() > 20),
            (ValueFirstAbove, value == b"4294967296"),
            (ValueLastAbove, value == b"9999999999"),
        ],
    );
}

/// What is particular about a value that has a byte that is no digit.
fn note_no_digit(value: &[u8], seen: &mut ImportSeen) {
    let is_number = |digits: Option<&[u8]>| digits.is_some_and(|it| read_number(it).is_ok());
    let signed = value.strip_prefix(b"+").or(value.strip_prefix(b"-"));
    let digits_and = |also: &[u8]| {
        let mut others = value
            .iter()
            .filter(|byte| !byte.is_ascii_digit())
            .peekable();
        others.peek().is_some() && others.all(|byte| also.contains(byte))
    };
    note_all(
        seen,
        &[
            (ValueSign, is_number(signed)),
            (ValueBlankInside, digits_and(b" \t")),
            (ValueEquals, digits_and(b"=")),
            (ValueReturn, is_number(value.strip_suffix(b"\r"))),
            (ValueZeroByte, is_number(value.strip_suffix(b"\0"))),
            (
                ValueNextToDigits,
                value.contains(&b'/') || value.contains(&b':'),
            ),
            (ValueHigh, has_high(value)),
        ],
    );
}

/// What is particular about the key that is told.
fn note_key(key: usize, names: &[u8], name: &[u8], seen: &mut ImportSeen) {
    let names: Vec<_> = names.chunks(NAME_BYTES).collect();
    let (lower, key_bytes, higher) = (&names[..key], names[key], &names[key + 1..]);
    let any_lower = |is: &dyn Fn(&[u8]) -> bool| lower.iter().any(|key| is(cut(key, 0).0));
    let begins_name = |key: &[u8]| !key.is_empty() && begins(key, name);
    let filled = &key_bytes[name.len()..];
    note_all(
        seen,
        &[
            (Key0, key == 0),
            (Key7, key == 7),
            (KeyLowest, higher.iter().any(|key| cut(key, 0).0 == name)),
            (KeyAboveEmpty, any_lower(&<[u8]>::is_empty)),
            (
                KeyAboveCase,
                any_lower(&|key| key.eq_ignore_ascii_case(name)),
            ),
            (KeyAboveBegins, any_lower(&begins_name)),
            (KeyAboveBegun, any_lower(&|key| begins(name, key))),
            (
                KeyAboveBehind,
                lower.iter().any(|bytes| stands_behind(name, bytes)),
            ),
            (KeyFilled, filled.iter().any(|&byte| byte != 0)),
        ],
    );
}

fn note_name(pair: &Pair, line: &Line, seen: &mut ImportSeen) {
    let (whole, name) = (pair.name.whole, pair.name.trimmed);
    note_all(
        seen,
        &[
            (Name1, name.len() == 1),
            (Name15, name.len() == 15),
            (Name16, name.len() == 16),
            (NameSpaceBefore, whole.starts_with(b" ")),
            (NameSpaceBehind, whole.ends_with(b" ")),
            (NameTabBefore, whole.starts_with(b"\t")),
            (NameTabBehind, whole.ends_with(b"\t")),
            (NameBlankInside, has_blank(name)),
            (NameHigh, has_high(name)),
            (NameWord, is_word(name) && !has_flag(line)),
        ],
    );
}

fn note_value(pair: &Pair, number: u32, seen: &mut ImportSeen) {
    let (whole, digits) = (pair.value.whole, pair.value.trimmed);
    let is_ten = digits.len() == 10;
    let is_zero_first = digits.starts_with(b"0");
    note_all(
        seen,
        &[
            (Value0, number == 0),
            (ValueMost, number == u32::MAX),
            (ValueZeros, is_zero_first && digits.len() > 1),
            (ValueTen, is_ten && !is_zero_first),
            (ValueTenZeros, is_ten && is_zero_first),
            (ValueSpaceBefore, whole.starts_with(b" ")),
            (ValueSpaceBehind, whole.ends_with(b" ")),
            (ValueTabBefore, whole.starts_with(b"\t")),
            (ValueTabBehind, whole.ends_with(b"\t")),
        ],
    );
}
