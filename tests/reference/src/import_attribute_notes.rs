//! What is particular about the attributes of a line that is accepted. For the
//! events alone: nothing is decided here.

use crate::import_line::{Attribute, Line};
use crate::import_notes::{has_high, note_all};
use crate::import_seen::ImportEvent::{self, *};
use crate::import_seen::ImportSeen;

/// The attributes that are told.
const WORDS: [&[u8]; 2] = [b"Secure", b"HttpOnly"];

/// Notes what is particular about the attributes.
pub fn note(line: &Line, seen: &mut ImportSeen) {
    SECURE.note(line, seen);
    HTTP_ONLY.note(line, seen);
    note_ends(line, seen);
    for attribute in &line.attributes {
        if !is_told(attribute) {
            note_other(attribute, seen);
        }
    }
}

/// Whether the line has an attribute that is told.
pub fn has_flag(line: &Line) -> bool {
    line.attributes.iter().any(is_told)
}

/// Whether this is the name of an attribute that is told.
pub fn is_word(name: &[u8]) -> bool {
    WORDS.iter().any(|word| name.eq_ignore_ascii_case(word))
}

fn is_told(attribute: &Attribute) -> bool {
    is_word(attribute.name.trimmed)
}

/// The events of an attribute that is told.
struct WordEvents {
    word: &'static [u8],
    as_written: ImportEvent,
    case: ImportEvent,
    value: ImportEvent,
    value_empty: ImportEvent,
    two_equals: ImportEvent,
    blank_before: ImportEvent,
    blank_behind: ImportEvent,
    twice: ImportEvent,
    first: ImportEvent,
    later: ImportEvent,
}

const SECURE: WordEvents = WordEvents {
    word: WORDS[0],
    as_written: SecureAsWritten,
    case: SecureCase,
    value: SecureValue,
    value_empty: SecureValueEmpty,
    two_equals: SecureTwoEquals,
    blank_before: SecureBlankBefore,
    blank_behind: SecureBlankBehind,
    twice: SecureTwice,
    first: SecureFirst,
    later: SecureLater,
};

const HTTP_ONLY: WordEvents = WordEvents {
    word: WORDS[1],
    as_written: HttpOnlyAsWritten,
    case: HttpOnlyCase,
    value: HttpOnlyValue,
    value_empty: HttpOnlyValueEmpty,
    two_equals: HttpOnlyTwoEquals,
    blank_before: HttpOnlyBlankBefore,
    blank_behind: HttpOnlyBlankBehind,
    twice: HttpOnlyTwice,
    first: HttpOnlyFirst,
    later: HttpOnlyLater,
};

impl WordEvents {
    fn note(&self, line: &Line, seen: &mut ImportSeen) {
        let is_word = |attribute: &&Attribute| attribute.is(self.word);
        let words: Vec<_> = line.attributes.iter().filter(is_word).collect();
        for word in &words {
            self.note_word(word, seen);
        }
        let is_neither = |attribute: &Attribute| !is_told(attribute);
        let first_is_neither = line.attributes.first().is_some_and(is_neither);
        let last_is_neither = line.attributes.last().is_some_and(is_neither);
        note_all(
            seen,
            &[
                (self.twice, words.len() > 1),
                (self.first, !words.is_empty() && last_is_neither),
                (self.later, !words.is_empty() && first_is_neither),
            ],
        );
    }

    /// What is particular about an attribute that is the word.
    fn note_word(&self, attribute: &Attribute, seen: &mut ImportSeen) {
        let (name, value) = (attribute.name, attribute.value);
        let value_is = |is: fn(&[u8]) -> bool| value.is_some_and(|value| is(value.whole));
        let is_blank_at = |byte: Option<&u8>| matches!(byte, Some(b' ' | b'\t'));
        note_all(
            seen,
            &[
                (self.as_written, name.whole == self.word && value.is_none()),
                (self.case, name.trimmed != self.word),
                (self.value, value_is(|value| !value.is_empty())),
                (self.value_empty, value_is(<[u8]>::is_empty)),
                (self.two_equals, value_is(|value| value.contains(&b'='))),
                (self.blank_before, is_blank_at(name.whole.first())),
                (self.blank_behind, is_blank_at(name.whole.last())),
            ],
        );
    }
}

/// Where attributes are empty, and how the last one ends.
fn note_ends(line: &Line, seen: &mut ImportSeen) {
    let Some((last, before)) = line.attributes.split_last() else {
        return;
    };
    let is_empty =
        |attribute: &Attribute| attribute.name.whole.is_empty() && attribute.value.is_none();
    let end = last.value.unwrap_or(last.name).whole;
    note_all(
        seen,
        &[
            (OtherEmpty, before.iter().any(is_empty)),
            (OtherEmptyLast, is_empty(last)),
            (OtherReturn, end.ends_with(b"\r")),
        ],
    );
}

/// What is particular about an attribute that is not told.
fn note_other(attribute: &Attribute, seen: &mut ImportSeen) {
    let (whole, name) = (attribute.name.whole, attribute.name.trimmed);
    let is_blank = !whole.is_empty() && name.is_empty() && attribute.value.is_none();
    note_all(
        seen,
        &[
            (Other, !name.is_empty()),
            (OtherBlank, is_blank),
            (OtherNoName, name.is_empty() && attribute.value.is_some()),
            (OtherHigh, has_high(name)),
            (
                NearValue,
                attribute.value.is_some_and(|value| is_word(value.trimmed)),
            ),
        ],
    );
    for word in WORDS {
        note_near(name, word, seen);
    }
}

/// In what a name is nearly this word.
fn note_near(name: &[u8], word: &[u8], seen: &mut ImportSeen) {
    let is_word = |bytes: &[u8]| bytes.eq_ignore_ascii_case(word);
    let differs = |(byte, letter): &(&u8, &u8)| !byte.eq_ignore_ascii_case(letter);
    let one_differs =
        name.len() == word.len() && name.iter().zip(word).filter(differs).count() == 1;
    let low_bits: Vec<u8> = name.iter().map(|byte| byte & 0x7F).collect();
    let no_blanks: Vec<u8> = name
        .iter()
        .copied()
        .filter(|byte| !b" \t".contains(byte))
        .collect();
    let (front, behind) = name.split_at(word.len().min(name.len()));
    let behind_word = if is_word(front) { behind } else { b"" };
    note_all(
        seen,
        &[
            (
                NearLonger,
                matches!(behind_word, [letter] if letter.is_ascii_alphabetic()),
            ),
            (
                NearShorter,
                is_word(&[name, &word[word.len() - 1..]].concat()),
            ),
            (
                NearFront,
                name.split_first().is_some_and(|(_, rest)| is_word(rest)),
            ),
            (NearLetter, one_differs),
            (NearHighBit, is_word(&low_bits)),
            (NearBroken, is_word(&no_blanks)),
            (NearMore, matches!(behind_word, [b' ' | b'\t', ..])),
            (NearReturn, behind_word == b"\r"),
            (NearZeroByte, behind_word == b"\0"),
            (NearOtherSpace, matches!(behind_word, [b'\n' | 0x0B | 0x0C])),
        ],
    );
}
