//! The test can fail: programs with a single fault each are told.

use programs::run::Run;
use programs::wrong::{assert_all_told, Right};
use reference::IMPORT_BYTES;

use crate::faults::{first_difference, honest, replaced};
use crate::run;

const RIGHT: Right = Right {
    printed: run::printed,
    first_difference: |program| first_difference(Box::new(honest), Some(program)),
};

/// A program that is right about another host than it was given.
fn mishosted(change: fn(&mut Vec<u8>)) -> Option<String> {
    RIGHT.misled(move |arguments| arguments.iter_mut().take(1).for_each(change))
}

/// A program that is right about other names than it was given.
fn misnamed(change: fn(&mut Vec<u8>)) -> Option<String> {
    RIGHT.misled(move |arguments| arguments.iter_mut().skip(1).for_each(change))
}

#[test]
fn an_honest_program_is_passed() {
    assert_eq!(RIGHT.told_of(|_, ran| ran), None);
}

#[test]
fn a_wrong_text_is_told() {
    let accepted_alone = |text: String| {
        let lines = text.split_inclusive('\n');
        lines.filter(|line| line.contains("word")).collect()
    };
    assert_all_told(&[
        RIGHT.misprinted(|text| text.trim_end().to_string()),
        RIGHT.misprinted(|text| text + "\n"),
        RIGHT.misprinted(|text| text.to_uppercase()),
        RIGHT.misprinted(|text| text.replace("0x", "")),
        RIGHT.misprinted(|text| text.replace(" = 0x0", " = 0x")),
        RIGHT.misprinted(|text| text.replace(", Secure, HttpOnly", ", HttpOnly, Secure")),
        RIGHT.misprinted(|text| text.replace("refused 14", "refused 15")),
        RIGHT.misprinted(|text| text.replace("4294967295", "4,294,967,295")),
        RIGHT.misprinted(|text| text.replace(": word", " word")),
        RIGHT.misprinted(|text| text.split_inclusive('\n').rev().collect()),
        RIGHT.misprinted(accepted_alone),
    ]);
}

#[test]
fn an_input_that_is_read_otherwise_is_told() {
    assert_all_told(&[
        RIGHT.misread(|input| replaced(input, b'\r', b'\n')),
        RIGHT.misread(|input| replaced(input, b'\n', b';')),
        RIGHT.misread(|input| [input, b"\n"].concat()),
        RIGHT.misread(|input| [input, b"\r"].concat()),
        RIGHT.misread(|input| input.strip_suffix(b"\n").unwrap_or(input).to_vec()),
        RIGHT.misread(|input| input[..input.len().min(4_096)].to_vec()),
        RIGHT.misread(|input| input[..input.len().min(IMPORT_BYTES)].to_vec()),
        RIGHT.misread(|input| input[..input.len().min(IMPORT_BYTES - 1)].to_vec()),
    ]);
}

/// A program that is right about other lines than it was given.
fn misread_lines(change: fn(&[u8]) -> Vec<u8>) -> Option<String> {
    RIGHT.told_of(move |run, _| {
        let lines = run.input.split(|&byte| byte == b'\n');
        RIGHT.ran(&Run {
            arguments: run.arguments.clone(),
            input: lines.map(change).collect::<Vec<_>>().join(&b'\n'),
        })
    })
}

/// A line without what it begins with.
fn without(front: &[u8], line: &[u8]) -> Vec<u8> {
    line.strip_prefix(front).unwrap_or(line).to_vec()
}

/// A line from whose end only so many carriage returns are taken off. What is left is another byte that is no blank either, so that it stays.
fn with_returns_left(line: &[u8], taken: usize) -> Vec<u8> {
    let returns = line.iter().rev().take_while(|&&byte| byte == b'\r').count();
    let bare = &line[..line.len() - returns];
    match returns > taken {
        true => [bare, b"\x0b"].concat(),
        false => bare.to_vec(),
    }
}

/// A line that is no header's where the header is in other letters than most.
fn with_usual_header(line: &[u8]) -> Vec<u8> {
    const USUAL: &[u8] = b"Set-Cookie:";
    match line.get(..USUAL.len()) {
        Some(front) if front.eq_ignore_ascii_case(USUAL) && front != USUAL => [b"x", line].concat(),
        _ => line.to_vec(),
    }
}

#[test]
fn a_line_that_is_taken_otherwise_is_told() {
    assert_all_told(&[
        misread_lines(with_usual_header),
        misread_lines(|line| without(b"Set-Cookie:", line)),
        misread_lines(|line| without(b"Set-Cookie :", line)),
        misread_lines(|line| without(b"Set-Cookie", line)),
        misread_lines(|line| without(b"Cookie:", line)),
        misread_lines(|line| without(b":", line)),
        misread_lines(|line| without(b" ", line)),
        misread_lines(|line| without(b"\t", line)),
        misread_lines(|line| with_returns_left(line, 0)),
        misread_lines(|line| with_returns_left(line, 1)),
    ]);
}

#[test]
fn arguments_that_are_taken_otherwise_are_told() {
    assert_all_told(&[
        RIGHT.misled(|arguments| arguments.truncate(9)),
        RIGHT.misled(|arguments| arguments.truncate(8)),
        RIGHT.misled(|arguments| arguments.resize(arguments.len().max(2), Vec::new())),
        RIGHT.misled(|arguments| arguments.retain(|argument| !argument.is_empty())),
        RIGHT.misled(|arguments| arguments.retain(|argument| !argument.starts_with(b"-"))),
        misnamed(|name| name.truncate(16)),
        misnamed(|name| name.truncate(15)),
        misnamed(|name| name.make_ascii_lowercase()),
        misnamed(|name| *name = name.trim_ascii().to_vec()),
        mishosted(|host| *host = host.trim_ascii().to_vec()),
        mishosted(|host| *host = without(b"+", host)),
        mishosted(|host| *host = without(b"0", host)),
        mishosted(|host| host.truncate(10)),
    ]);
}

#[test]
fn a_complaint_in_the_wrong_place_is_told() {
    RIGHT.assert_complaints_told();
}

#[test]
fn another_status_is_told() {
    RIGHT.assert_statuses_told();
}

#[test]
fn other_programs_are_told() {
    RIGHT.assert_others_told("import-test-faults");
}
