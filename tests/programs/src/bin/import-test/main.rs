//! Reads random Set-Cookie lines by the library and by the program import, and compares all that they say with what the reference says.

mod checker;
#[cfg(test)]
mod faults;
mod input;
mod run;
#[cfg(test)]
mod run_faults;

use std::io;
use std::process::ExitCode;

use cases::line::Given;
use cases::{events, Random};
use programs::counts::Column;
use programs::program::{self, Program};
use programs::run::{left_out, Draw};
use programs::{suite, Checked, Suite};
use reference::{Imported, HOST_UNKNOWN, NO_KEY, NO_NAME, NO_NUMBER};

use checker::{Checker, Compared};
use input::{Input, Kind};

/// The numbers that have a column; the last column tells how many inputs went to the program.
const NUMBERS: [u32; 5] = [0, HOST_UNKNOWN, NO_NAME, NO_KEY, NO_NUMBER];
const TO_IMPORT: usize = NUMBERS.len();

struct Imports {
    checker: Checker,
    program: Option<Program>,
}

impl Suite for Imports {
    const NAME: &'static str = "import-test";
    const USAGE: &'static str = "usage: import-test PATH_TO_IMPORT [SECONDS [SEED]]
       import-test PATH_TO_IMPORT --cases N [SEED]
       import-test PATH_TO_IMPORT --replay SEED:CASE[:INPUT]
--library in place of PATH_TO_IMPORT tests the library alone, and leaves out what is for the program.";
    const RECORDS: &'static str = "lines";
    const COLUMNS: &'static [Column] = &[
        ("number 0", 10),
        ("6", 9),
        ("14", 9),
        ("15", 9),
        ("16", 9),
        ("to import", 11),
    ];
    const COVERING: (u64, &'static str) = (1_000, "kind and event");

    type Kind = Kind;
    type Draw = Draw;

    fn draw(random: &Random, _: usize) -> Draw {
        Draw::random(random)
    }

    fn check(&mut self, input: &Input, draw: Draw) -> io::Result<Checked> {
        match (input, &self.program) {
            (Input::Line(given), _) => Ok(self.check_line(given, &Random::new(draw.place))),
            (Input::Run(run), Some(program)) => {
                let printed = run::printed(run);
                let lines = printed.iter().flat_map(|text| text.lines()).count() as u64;
                run.check(printed, lines, TO_IMPORT, program, draw.arrival)
            }
            (Input::Run(_), None) => Ok(left_out(TO_IMPORT)),
        }
    }

    fn print_more(&self) {
        events::print(&self.checker.events());
    }

    fn missing(&self) -> Vec<&'static str> {
        events::never_seen(&self.checker.events())
    }
}

impl Imports {
    /// Of a line for the library.
    fn check_line(&mut self, given: &Given, random: &Random) -> Checked {
        let Compared {
            expected,
            found,
            verdict,
        } = self.checker.check(given, random);
        let counted = NUMBERS.map(|number| u64::from(expected.number == number));
        Checked {
            verdict,
            expected: text(&expected),
            found: found.as_ref().map(text).unwrap_or_default().into(),
            records: 1,
            more: [&counted[..], &[0]].concat(),
        }
    }
}

/// An answer as it is saved to be looked at.
fn text(imported: &Imported) -> String {
    let Imported {
        number,
        key,
        value,
        secure,
        http_only,
        readers,
    } = imported;
    format!("number {number}\nkey {key}\nvalue {value}\nsecure {secure}\nhttp_only {http_only}\nreaders {readers:08x}\n")
}

fn main() -> ExitCode {
    suite::main(|path| Imports {
        checker: Checker::new(Box::new(checker::library)),
        program: program::unless_alone(path, Imports::NAME),
    })
}
