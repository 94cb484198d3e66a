//! The test can fail: counters and programs with a single fault each are told.

use std::os::unix::process::ExitStatusExt;
use std::process::ExitStatus;

use cases::guarded::{flip, Guarded};
use programs::program::{self, Program, Ran};
use programs::{suite, Kind as _};
use reference::{Tally, LIST_BAD, LIST_BYTES};

use crate::checker::{self, Checker, Counter};
use crate::input::Kind;
use crate::Tallies;

/// The first difference that a few cases find.
fn first_difference(counter: Counter, program: Option<Program>) -> Option<String> {
    let mut tallies = Tallies {
        checker: Checker::new(counter),
        program,
    };
    suite::first_difference(&mut tallies, 8 * Kind::CYCLE).expect("the program can be run")
}

fn honest(list: &mut Guarded<u8>) -> Tally {
    reference::tally(list.inside())
}

fn assert_told(counter: Counter, what: &str) {
    let told = first_difference(counter, None).expect("the fault is found");
    assert!(told.starts_with(&format!("library: {what}")), "{told}");
}

/// A counter that gives another tally than it should.
fn answering(change: fn(Tally) -> Tally) -> Counter {
    Box::new(move |list| change(honest(list)))
}

/// A counter that answers another number for some lists, and counts nothing in them.
fn numbering(number: u32, lists: fn(&[u8]) -> bool) -> Counter {
    Box::new(move |list| match lists(list.inside()) {
        true => Tally {
            number,
            ..reference::tally(&[])
        },
        false => honest(list),
    })
}

/// A counter that counts right, and then does something more.
fn spoiling(spoil: fn(&mut Guarded<u8>)) -> Counter {
    Box::new(move |list| {
        let tally = honest(list);
        spoil(list);
        tally
    })
}

#[test]
fn honest_counters_are_passed() {
    assert_eq!(first_difference(Box::new(honest), None), None);
    assert_eq!(first_difference(Box::new(checker::library), None), None);
}

#[test]
fn a_wrong_number_is_told() {
    let other = answering(|tally| Tally {
        number: tally.number.min(LIST_BAD - 1),
        ..tally
    });
    assert_told(other, "number");
    assert_told(numbering(LIST_BAD, <[u8]>::is_empty), "number");
    let shorter = |list: &[u8]| list.len() == LIST_BYTES;
    assert_told(numbering(LIST_BAD, shorter), "number");
    let longer = |list: &[u8]| list.len() == LIST_BYTES + 1;
    assert_told(numbering(0, longer), "number");
    let no_key = |list: &[u8]| matches!(list, [0x07, _, _, 0, ..]);
    assert_told(numbering(0, no_key), "number");
    let picture_without_key = |list: &[u8]| matches!(list, [0x47, _, _, 0, ..]);
    assert_told(numbering(0, picture_without_key), "number");
    let picture = |list: &[u8]| matches!(list, [0x43 | 0x47, ..]);
    assert_told(numbering(LIST_BAD, picture), "number");
    let redirect = |list: &[u8]| matches!(list, [0x23 | 0x27, ..]);
    assert_told(numbering(0, redirect), "number");
}

#[test]
fn what_a_cut_list_has_is_not_counted() {
    let forgiving: Counter = Box::new(|list| {
        let list = list.inside();
        let beginnings = (0..=list.len().min(40)).map(|cut| &list[..list.len() - cut]);
        let mut tallies = beginnings.map(reference::tally);
        let good = tallies.find(|tally| tally.number == 0);
        good.unwrap_or_else(|| reference::tally(list))
    });
    assert_told(forgiving, "number");
}

#[test]
fn a_wrong_count_is_told() {
    let last_url = answering(|mut tally| {
        tally.records[63] = 0;
        tally
    });
    assert_told(last_url, "records at 63");
    let eight_bits = answering(|mut tally| {
        tally.records = tally.records.map(|count| count % 256);
        tally
    });
    assert_told(eight_bits, "records");
    let one_for_each_record = answering(|mut tally| {
        for (cookies, records) in tally.cookies.iter_mut().zip(tally.records) {
            *cookies = records.min(*cookies);
        }
        tally
    });
    assert_told(one_for_each_record, "cookies");
    let lines_counted = answering(|tally| Tally {
        all_records: tally.records.iter().filter(|count| **count > 0).count() as u32,
        ..tally
    });
    assert_told(lines_counted, "all records");
    let all_cookies = answering(|tally| Tally {
        all_cookies: tally.all_cookies.min(tally.all_records),
        ..tally
    });
    assert_told(all_cookies, "all cookies");
    let counts_of_a_bad_list = answering(|mut tally| {
        tally.cookies[1] += u32::from(tally.number == LIST_BAD);
        tally
    });
    assert_told(counts_of_a_bad_list, "cookies at 1");
}

#[test]
fn a_touched_list_and_a_broken_guard_are_told() {
    assert_told(spoiling(|list| flip(list.inside_mut().last_mut())), "list");
    assert_told(spoiling(Guarded::flip_before), "guard before the list");
    assert_told(spoiling(Guarded::flip_behind), "guard behind the list");
}

#[test]
fn a_panic_is_told() {
    assert_told(Box::new(|_| panic!("as it should")), "panicked");
}

/// The first difference that a few cases find with a program that does what it should, and then something else.
fn told_of(change: impl Fn(&[u8], Ran) -> Ran + 'static) -> Option<String> {
    let program: Program = Box::new(move |_, list, _| {
        let right = Ran {
            stdout: reference::tally_text(list).into(),
            stderr: Vec::new(),
            status: ExitStatus::from_raw(0),
        };
        Ok(change(list, right))
    });
    first_difference(Box::new(honest), Some(program))
}

/// The lines of the right text, changed.
fn lines(list: &[u8], change: impl Fn(&mut Vec<String>)) -> String {
    let mut lines: Vec<String> = reference::tally_text(list)
        .split_inclusive('\n')
        .map(String::from)
        .collect();
    change(&mut lines);
    lines.concat()
}

#[test]
fn an_honest_program_is_passed() {
    assert_eq!(told_of(|_, ran| ran), None);
}

#[test]
fn a_wrong_text_is_told() {
    let wrong: [fn(&[u8]) -> String; 8] = [
        |list| reference::tally_text(list).trim_end().to_string(),
        |list| reference::tally_text(list) + "\n",
        |list| reference::tally_text(list).replace("bad", "13"),
        |list| reference::tally_text(list).replace(' ', "  "),
        |list| reference::tally_text(&list[..list.len().min(4096)]),
        |list| reference::tally_text(&list[..list.len().min(LIST_BYTES)]),
        |list| lines(list, |lines| lines.retain(|line| !line.ends_with(" 0\n"))),
        |list| lines(list, |lines| lines.reverse()),
    ];
    for (index, text) in wrong.into_iter().enumerate() {
        let told = told_of(move |list, ran| Ran {
            stdout: text(list).into(),
            ..ran
        });
        let told = told.unwrap_or_else(|| panic!("text {index} is passed"));
        assert!(told.starts_with("line "), "{told}");
    }
}

#[test]
fn status_and_standard_error_are_told() {
    let failing = told_of(|_, ran| Ran {
        status: ExitStatus::from_raw(13 << 8),
        ..ran
    });
    assert_eq!(failing.as_deref(), Some("ended with exit status: 13"));
    let complaining = told_of(|list, ran| Ran {
        stderr: list.to_vec(),
        ..ran
    });
    assert!(complaining.is_some_and(|told| told.starts_with("wrote to standard error")));
}

/// Programs that are everywhere: one prints nothing, one its input, one fails.
#[test]
fn other_programs_are_told() {
    for name in ["true", "cat", "false"] {
        let other = program::at(name, "tally-test-faults");
        let told = first_difference(Box::new(honest), Some(other));
        assert!(told.is_some(), "{name}");
    }
}
