//! The test can fail: programs with a single fault each are told.

use programs::wrong::{assert_all_told, Right};
use reference::JOURNEY_URLS;

use crate::faults::{first_difference, honest};
use crate::run;

const RIGHT: Right = Right {
    printed: run::printed,
    first_difference: |program| first_difference(Box::new(honest), Some(program)),
};

/// A program that is right about other numbers than it was given.
fn misnumbered(change: fn(&mut Vec<u8>)) -> Option<String> {
    RIGHT.misled(move |arguments| arguments.iter_mut().for_each(change))
}

/// The same where an argument is a number.
fn miscounted(change: fn(u64) -> u64) -> Option<String> {
    RIGHT.misled(move |arguments| {
        for argument in arguments {
            if let Ok(number) = String::from_utf8_lossy(argument).parse::<u64>() {
                *argument = change(number).to_string().into();
            }
        }
    })
}

/// A text with each line that has this word changed.
fn with_lines(text: &str, word: &str, change: impl Fn(&str) -> String) -> String {
    let line = |line: &str| match line.contains(word) {
        true => change(line),
        false => line.to_string(),
    };
    text.split_inclusive('\n').map(line).collect()
}

#[test]
fn an_honest_program_is_passed() {
    assert_eq!(RIGHT.told_of(|_, ran| ran), None);
}

#[test]
fn a_wrong_text_is_told() {
    assert_all_told(&[
        RIGHT.misprinted(|text| text.trim_end().to_string()),
        RIGHT.misprinted(|text| text + "\n"),
        RIGHT.misprinted(|text| text.to_uppercase()),
        RIGHT.misprinted(|text| text.replace("refused 17", "refused 2")),
        RIGHT.misprinted(|text| text.replace("refused 2:", "refused 17:")),
        RIGHT.misprinted(|text| text.replace("none\n", "")),
        RIGHT.misprinted(|text| text.replace("none\n", "32\n")),
        RIGHT.misprinted(|text| text.split_inclusive('\n').rev().collect()),
        RIGHT.misprinted(|text| text.split_inclusive('\n').take(1).collect()),
        RIGHT.misprinted(|text| text.split_inclusive('\n').take(32).collect()),
        RIGHT.misprinted(|text| text.replace("URL ", "url ")),
    ]);
}

#[test]
fn a_wrong_reason_is_told() {
    assert_all_told(&[
        RIGHT.misprinted(|text| text.replace("refused 8", "refused 9")),
        RIGHT.misprinted(|text| text.replace("refused 9", "refused 8")),
        RIGHT.misprinted(|text| text.replace("readers", "writers")),
        RIGHT.misprinted(|text| text.replace("writers", "readers")),
        RIGHT.misprinted(|text| text.replace("(1 of", "(0 of")),
        RIGHT.misprinted(|text| text.replace("(16 of 16)", "(15 of 16)")),
        RIGHT.misprinted(|text| text.replace("endpoint 0 ", "endpoint 32 ")),
        RIGHT.misprinted(|text| text.replace("endpoint 31 ", "endpoint 30 ")),
        RIGHT.misprinted(|text| {
            with_lines(&text, "readers of connection", |line| {
                line.replace("of connection", "of URL")
            })
        }),
        RIGHT.misprinted(|text| {
            with_lines(&text, "writers of URL", |line| {
                line.replace("writers of URL", "writers of connection")
            })
        }),
    ]);
}

/// A line that tells of a set of a URL, with that URL as it is named and as it is asked for.
fn with_urls(line: &str, urls: fn([&str; 2]) -> [&str; 2]) -> Option<String> {
    let (front, rest) = line.split_once("at URL ")?;
    let (named, rest) = rest.split_once(' ')?;
    let (between, asked) = rest.rsplit_once(" of URL ")?;
    let [named, asked] = urls([named, asked.trim_end()]);
    Some(format!("{front}at URL {named} {between} of URL {asked}\n"))
}

#[test]
fn a_url_in_place_of_its_partner_is_told() {
    let printing = |urls: fn([&str; 2]) -> [&str; 2]| {
        let change = move |line: &str| with_urls(line, urls).expect("it has both URLs");
        RIGHT.misprinted(move |text| with_lines(&text, " of URL ", change))
    };
    assert_eq!(printing(|urls| urls), None);
    assert_all_told(&[
        printing(|[named, _]| [named, named]),
        printing(|[_, asked]| [asked, asked]),
        printing(|[named, asked]| [asked, named]),
    ]);
}

#[test]
fn an_input_that_is_read_otherwise_is_told() {
    RIGHT.assert_misread_policies_told();
}

#[test]
fn arguments_that_are_taken_otherwise_are_told() {
    assert_all_told(&[
        RIGHT.misled(|arguments| arguments.truncate(JOURNEY_URLS)),
        RIGHT.misled(|arguments| arguments.truncate(JOURNEY_URLS - 1)),
        RIGHT.misled(|arguments| arguments.truncate(JOURNEY_URLS + 1)),
        RIGHT.misled(|arguments| arguments.resize(arguments.len().max(1), b"0".to_vec())),
        RIGHT.misled(|arguments| arguments.retain(|argument| !argument.is_empty())),
        RIGHT.misled(|arguments| arguments.retain(|argument| !argument.starts_with(b"-"))),
        RIGHT.misled(|arguments| arguments.reverse()),
        RIGHT.misled(|arguments| arguments.dedup()),
        RIGHT.misled(|arguments| drop(arguments.pop())),
        misnumbered(|number| *number = number.trim_ascii().to_vec()),
        misnumbered(|number| *number = without(b"+", number)),
        misnumbered(|number| *number = without(b"0", number)),
        misnumbered(|number| number.truncate(10)),
        miscounted(|number| number % 256),
        miscounted(|number| if number > 255 { 0 } else { number }),
        miscounted(|number| if number > 255 { 1 << 40 } else { number }),
        miscounted(|number| number % (1 << 32)),
        miscounted(|number| number + 1),
    ]);
}

/// An argument without what it begins with.
fn without(front: &[u8], argument: &[u8]) -> Vec<u8> {
    argument.strip_prefix(front).unwrap_or(argument).to_vec()
}

#[test]
fn a_complaint_in_the_wrong_place_is_told() {
    RIGHT.assert_complaints_told();
}

#[test]
fn another_status_is_told() {
    RIGHT.assert_statuses_told();
}

#[test]
fn other_programs_are_told() {
    RIGHT.assert_others_told("journey-test-faults");
}
