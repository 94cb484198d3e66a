//! The program import: a host, names and lines.

use std::fmt::Write;

use crate::import::{
    import, read_number, Imported, HOST_UNKNOWN, IMPORT_BYTES, NAMES_BYTES, NAME_BYTES, NO_KEY,
    NO_NAME, NO_NUMBER,
};
use crate::import_line::cut;
use crate::layout::{KEYS, POLICY_COOKIES};
use crate::numbers::ACCEPTED;

/// What the program import prints on standard output for this host, these
/// names and this standard input.
pub fn import_text(host: u32, names: &[u8], input: &[u8]) -> String {
    let mut text = String::new();
    if input.len() > IMPORT_BYTES {
        return text;
    }
    for (place, line) in lines(input).into_iter().enumerate() {
        let imported = import(host, names, without_header(without_returns(line)));
        let told = match imported.number {
            ACCEPTED => accepted(host, &imported),
            number => refused(number),
        };
        writeln!(text, "{}: {told}", place + 1).expect("a string takes every line");
    }
    text
}

/// The names that these arguments give to the keys, in order; `None` where
/// there are none, more than eight, or one is too long.
pub fn names_of(arguments: &[&[u8]]) -> Option<[u8; NAMES_BYTES]> {
    let mut names = [0; NAMES_BYTES];
    if arguments.is_empty() || arguments.len() > KEYS {
        return None;
    }
    for (key_name, argument) in names.chunks_mut(NAME_BYTES).zip(arguments) {
        key_name
            .get_mut(..argument.len())?
            .copy_from_slice(argument);
    }
    Some(names)
}

/// The host that this argument is: digits, as of a value. It may be above 15.
pub fn host_of(argument: &[u8]) -> Option<u32> {
    read_number(argument).ok()
}

/// Each ends before a newline; what follows the last newline is one too, unless
/// it is empty.
fn lines(input: &[u8]) -> Vec<&[u8]> {
    let mut lines: Vec<_> = input.split(|&byte| byte == b'\n').collect();
    lines.pop_if(|last| last.is_empty());
    lines
}

/// Takes the carriage returns off the end.
fn without_returns(line: &[u8]) -> &[u8] {
    let mut rest = line;
    while let [front @ .., b'\r'] = rest {
        rest = front;
    }
    rest
}

/// Takes off the header's name and its colon.
fn without_header(line: &[u8]) -> &[u8] {
    match cut(line, b':') {
        (header, Some(text)) if header.eq_ignore_ascii_case(b"Set-Cookie") => text,
        _ => line,
    }
}

/// The policy word that the line settles, which is the cookie's readers, and
/// what else it says.
fn accepted(host: u32, imported: &Imported) -> String {
    let Imported {
        key,
        value,
        readers,
        ..
    } = imported;
    let word = POLICY_COOKIES as u32 + 2 * (KEYS as u32 * host + key);
    let secure = if imported.secure { ", Secure" } else { "" };
    let http_only = if imported.http_only { ", HttpOnly" } else { "" };
    format!("word {word} = 0x{readers:08x}, key {key}, value {value}{secure}{http_only}")
}

fn refused(number: u32) -> String {
    let why = match number {
        HOST_UNKNOWN => "the host is above 15",
        NO_NAME => "the pair has no equals sign, or no name before it",
        NO_KEY => "none of the names is the cookie's",
        NO_NUMBER => "the value is not one to ten digits that make at most 4294967295",
        _ => unreachable!("the importer has no other number"),
    };
    format!("refused {number}: {why}")
}
