//! Finds connections for random journeys by the library and by the program journey, and where each connection stops, and compares all that they say
//! with what the reference says.

mod checker;
#[cfg(test)]
mod faults;
mod input;
mod run;
#[cfg(test)]
mod run_faults;
#[cfg(test)]
mod stop_faults;
mod stops;

use std::io;
use std::process::ExitCode;

use cases::journey::Given;
use cases::{events, Random};
use programs::counts::Column;
use programs::program::{self, Program};
use programs::run::{left_out, Draw};
use programs::{suite, Checked, Suite};
use reference::numbers::{ACCEPTED, POLICY_BAD};
use reference::{Found, JOURNEY_BAD, NO_CONNECTION};

use checker::{Checker, Compared};
use input::{Input, Kind};

/// What has a column: connections 0, 1 to 30 and 31, none, and the refusals. The last column tells how many inputs went to the program.
const ANSWERS: usize = 6;
const TO_JOURNEY: usize = ANSWERS;

struct Journeys {
    checker: Checker,
    program: Option<Program>,
}

impl Suite for Journeys {
    const NAME: &'static str = "journey-test";
    const USAGE: &'static str = "usage: journey-test PATH_TO_JOURNEY [SECONDS [SEED]]
       journey-test PATH_TO_JOURNEY --cases N [SEED]
       journey-test PATH_TO_JOURNEY --replay SEED:CASE[:INPUT]
--library in place of PATH_TO_JOURNEY tests the library alone, and leaves out what is for the program.";
    const RECORDS: &'static str = "URLs";
    const COLUMNS: &'static [Column] = &[
        ("on 0", 9),
        ("1 to 30", 9),
        ("31", 9),
        ("none", 9),
        ("number 2", 10),
        ("17", 9),
        ("to journey", 12),
    ];
    const COVERING: (u64, &'static str) = (1_000, "kind and event");

    type Kind = Kind;
    type Draw = Draw;

    fn draw(random: &Random, _: usize) -> Draw {
        Draw::random(random)
    }

    fn check(&mut self, input: &Input, draw: Draw) -> io::Result<Checked> {
        match (input, &self.program) {
            (Input::Journey(given), _) => Ok(self.check_journey(given, &Random::new(draw.place))),
            (Input::Run(run), Some(program)) => {
                let urls = run.arguments.len() as u64;
                run.check(run::printed(run), urls, TO_JOURNEY, program, draw.arrival)
            }
            (Input::Run(_), None) => Ok(left_out(TO_JOURNEY)),
        }
    }

    fn print_more(&self) {
        events::print(&self.checker.events());
    }

    fn missing(&self) -> Vec<&'static str> {
        events::never_seen(&self.checker.events())
    }
}

impl Journeys {
    /// Of a journey for the library.
    fn check_journey(&mut self, given: &Given, random: &Random) -> Checked {
        let Compared {
            expected,
            found,
            verdict,
        } = self.checker.check(given, random);
        Checked {
            verdict,
            expected: text(&expected),
            found: found.as_ref().map(text).unwrap_or_default().into(),
            records: given.urls.len() as u64,
            more: [&counted(&expected)[..], &[0]].concat(),
        }
    }
}

/// Each answer in its column.
fn counted(found: &Found) -> [u64; ANSWERS] {
    let Found { number, connection } = *found;
    let last = NO_CONNECTION - 1;
    let on = |connections: bool| u64::from(number == ACCEPTED && connections);
    [
        on(connection == 0),
        on((1..last).contains(&connection)),
        on(connection == last),
        on(connection == NO_CONNECTION),
        u64::from(number == POLICY_BAD),
        u64::from(number == JOURNEY_BAD),
    ]
}

/// An answer as it is saved to be looked at.
fn text(found: &Found) -> String {
    let Found { number, connection } = found;
    format!("number {number}\nconnection {connection}\n")
}

fn main() -> ExitCode {
    suite::main(|path| Journeys {
        checker: Checker::new(Box::new(checker::library), Box::new(stops::library)),
        program: program::unless_alone(path, Journeys::NAME),
    })
}
