//! The test can fail: programs with a single fault each are told.

use cases::labels::POLICY_WORDS;
use programs::program::Ran;
use programs::wrong::{assert_all_told, Right, UNCHECKED};
use reference::{reach_count, Reach};

use crate::faults::{first_difference, honest, read, READINGS};
use crate::run;

const RIGHT: Right = Right {
    printed: run::printed,
    first_difference: |program| first_difference(honest(), Some(program)),
};

/// The words of an input that are whole.
fn words(input: &[u8]) -> Vec<u32> {
    let word = |bytes: &[u8]| u32::from_be_bytes([bytes[0], bytes[1], bytes[2], bytes[3]]);
    input.chunks_exact(4).map(word).collect()
}

/// A program that prints another table than it should.
fn mistabled(table: impl Fn(&[u32]) -> Reach + 'static) -> Option<String> {
    RIGHT.told_of(move |run, ran| Ran {
        stdout: table(&words(&run.input)).to_string().into(),
        ..ran
    })
}

/// The same where it does print one.
fn miscounted(table: impl Fn(&[u32]) -> Reach + 'static) -> Option<String> {
    RIGHT.told_of(move |run, ran| match ran.stdout == b"2\n" {
        true => ran,
        false => Ran {
            stdout: table(&words(&run.input)).to_string().into(),
            ..ran
        },
    })
}

#[test]
fn an_honest_program_is_passed() {
    assert_eq!(RIGHT.told_of(|_, ran| ran), None);
    assert_eq!(miscounted(reach_count), None);
}

#[test]
fn another_reading_is_told() {
    for (what, fits) in READINGS {
        let told = miscounted(move |policy| read(policy, fits));
        assert!(told.is_some(), "{what}");
    }
}

#[test]
fn a_wrong_total_is_told() {
    assert_all_told(&[
        miscounted(|policy| {
            let reach = reach_count(policy);
            let all = reach.urls[..31].iter().sum();
            Reach { all, ..reach }
        }),
        miscounted(|policy| {
            let reach = reach_count(policy);
            let all = reach.urls[1..].iter().sum();
            Reach { all, ..reach }
        }),
    ]);
}

#[test]
fn a_refused_policy_that_is_taken_is_told() {
    let told = UNCHECKED.map(|taken| mistabled(move |policy| reach_count(&taken(policy))));
    assert_all_told(&told);
    let table = || Reach {
        number: 0,
        urls: [0; 32],
        all: 0,
    };
    assert_all_told(&[
        RIGHT.misprinted(move |text| text.replace("2\n", &table().to_string())),
        mistabled(move |policy| match policy.len() {
            POLICY_WORDS => reach_count(policy),
            _ => table(),
        }),
        mistabled(move |policy| match reach_count(policy) {
            reach if policy.len() == POLICY_WORDS && reach.number != 0 => table(),
            reach => reach,
        }),
    ]);
}

#[test]
fn a_wrong_text_is_told() {
    assert_all_told(&[
        RIGHT.misprinted(|text| text.trim_end().to_string()),
        RIGHT.misprinted(|text| text + "\n"),
        RIGHT.misprinted(|text| text.replace(' ', "  ")),
        RIGHT.misprinted(|text| text.replace(' ', "")),
        RIGHT.misprinted(|text| text.replace(' ', "\t")),
        RIGHT.misprinted(|text| text.replace("all", "All")),
        RIGHT.misprinted(|text| text.replace("all", "32")),
        RIGHT.misprinted(|text| text.replace('\n', "\r\n")),
        RIGHT.misprinted(|text| text.split_inclusive('\n').rev().collect()),
        RIGHT.misprinted(|text| text.split_inclusive('\n').skip(1).collect()),
        RIGHT.misprinted(|text| text.split_inclusive('\n').take(32).collect()),
    ]);
}

/// Where it is refused, or has counts of 0.
#[test]
fn another_text_for_little_is_told() {
    let is_zero = |line: &&str| !line.ends_with(" 0\n");
    assert_all_told(&[
        RIGHT.misprinted(move |text| text.split_inclusive('\n').filter(is_zero).collect()),
        RIGHT.misprinted(|text| if text == "2\n" { String::new() } else { text }),
        RIGHT.misprinted(|text| if text == "2\n" { "bad\n".into() } else { text }),
        RIGHT.misprinted(|text| {
            if text == "2\n" {
                "refused 2\n".into()
            } else {
                text
            }
        }),
        RIGHT.misprinted(|text| {
            if text.ends_with("all 0\n") {
                "2\n".into()
            } else {
                text
            }
        }),
    ]);
}

#[test]
fn an_input_that_is_read_otherwise_is_told() {
    RIGHT.assert_misread_policies_told();
}

#[test]
fn arguments_that_are_looked_at_are_told() {
    let usage = RIGHT.told_of(|run, ran| match run.arguments.is_empty() {
        true => ran,
        false => Ran {
            stdout: Vec::new(),
            stderr: b"usage".to_vec(),
            ..ran
        },
    });
    assert_all_told(&[usage]);
}

#[test]
fn another_status_and_a_complaint_are_told() {
    RIGHT.assert_failures_told();
}

#[test]
fn other_programs_are_told() {
    RIGHT.assert_others_told("reach-test-faults");
}
