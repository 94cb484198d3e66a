//! Counts random lists of requests by the library and by the program tally, and compares all that they say with what the reference says.

mod checker;
#[cfg(test)]
mod faults;
mod input;

use std::fmt::{Display, Write};
use std::io;
use std::process::ExitCode;

use cases::{events, Random};
use programs::counts::Column;
use programs::program::{self, Arrival, Program};
use programs::{suite, verdict, Checked, Suite};
use reference::Tally;

use checker::{Checker, Counted};
use input::Kind;

/// The last column: how many lists went to the program.
const TO_TALLY: usize = 2;

struct Tallies {
    checker: Checker,
    program: Option<Program>,
}

/// Where the list is laid for the library, and how it reaches the program if it is one that goes there.
struct Draw {
    place: u64,
    arrival: Option<Arrival>,
}

impl Suite for Tallies {
    const NAME: &'static str = "tally-test";
    const USAGE: &'static str = "usage: tally-test PATH_TO_TALLY [SECONDS [SEED]]
       tally-test PATH_TO_TALLY --cases N [SEED]
       tally-test PATH_TO_TALLY --replay SEED:CASE[:INPUT]
--library in place of PATH_TO_TALLY tests the library alone.";
    const COLUMNS: &'static [Column] = &[("number 0", 10), ("number 13", 11), ("to tally", 10)];
    const COVERING: (u64, &'static str) = (1_000, "kind and event");

    type Kind = Kind;
    type Draw = Draw;

    /// To start a program takes as long as to count many lists: about one list of a case goes there.
    fn draw(random: &Random, inputs: usize) -> Draw {
        let arrival = Arrival::random(random);
        Draw {
            place: random.bits(),
            arrival: random.one_in(inputs).then_some(arrival),
        }
    }

    fn check(&mut self, list: &Vec<u8>, draw: Draw) -> io::Result<Checked> {
        let counted = self.checker.check(list, &Random::new(draw.place));
        let mut checked = checked(counted);
        let goes_there = draw.arrival.filter(|_| checked.verdict.is_ok());
        if let (Some(program), Some(arrival)) = (&self.program, goes_there) {
            let ran = program(&[], list, arrival)?;
            checked.expected = reference::tally_text(list);
            checked.verdict = verdict::judge(&checked.expected, &ran);
            checked.found = ran.stdout;
            checked.more[TO_TALLY] = 1;
        }
        Ok(checked)
    }

    fn print_more(&self) {
        events::print(&self.checker.events());
    }

    fn missing(&self) -> Vec<&'static str> {
        events::never_seen(&self.checker.events())
    }
}

/// Of a list that went to the library alone.
fn checked(counted: Counted) -> Checked {
    let Counted {
        expected,
        found,
        verdict,
    } = counted;
    let good = expected.number == 0;
    Checked {
        verdict,
        expected: text(&expected),
        found: found.as_ref().map(text).unwrap_or_default().into(),
        records: expected.all_records.into(),
        more: vec![good.into(), (!good).into(), 0],
    }
}

/// A tally as it is saved to be looked at.
fn text(tally: &Tally) -> String {
    let mut text = format!("number {}\n", tally.number);
    let mut line = |name: &dyn Display, records: u32, cookies: u32| {
        writeln!(text, "{name} {records} {cookies}").expect("a string takes every line");
    };
    for (url, (&records, &cookies)) in tally.records.iter().zip(&tally.cookies).enumerate() {
        if (records, cookies) != (0, 0) {
            line(&url, records, cookies);
        }
    }
    line(&"all", tally.all_records, tally.all_cookies);
    text
}

fn main() -> ExitCode {
    suite::main(|path| Tallies {
        checker: Checker::new(Box::new(checker::library)),
        program: program::unless_alone(path, Tallies::NAME),
    })
}
