//! Runs the program walk on random inputs, and compares all that it prints with what the reference says.

mod input;

use std::io;
use std::process::ExitCode;

use cases::Random;
use programs::counts::Column;
use programs::program::{self, Arrival, Program};
use programs::{suite, verdict, Checked, Kind as _, Suite};

use input::Kind;

struct Walk {
    program: Program,
}

impl Suite for Walk {
    const NAME: &'static str = "walk-test";
    const USAGE: &'static str = "usage: walk-test PATH_TO_WALK [SECONDS [SEED]]
       walk-test PATH_TO_WALK --cases N [SEED]
       walk-test PATH_TO_WALK --replay SEED:CASE[:INPUT]";
    const COLUMNS: &'static [Column] = &[];
    const COVERING: (u64, &'static str) = (Kind::CYCLE, "kind");

    type Kind = Kind;
    type Draw = Arrival;

    fn draw(random: &Random, _: usize) -> Arrival {
        Arrival::random(random)
    }

    fn check(&mut self, input: &Vec<u8>, arrival: Arrival) -> io::Result<Checked> {
        let ran = (self.program)(&[], input, arrival)?;
        let expected = reference::walk(input);
        Ok(Checked {
            verdict: verdict::judge(&expected, &ran),
            records: records_in(&expected),
            more: Vec::new(),
            expected,
            found: ran.stdout,
        })
    }
}

fn main() -> ExitCode {
    suite::main(|path| Walk {
        program: program::at(path, Walk::NAME),
    })
}

/// How many records walk told of.
fn records_in(printed: &str) -> u64 {
    let told = |line: &&str| line.starts_with(|first: char| first.is_ascii_digit());
    printed.lines().filter(told).count() as u64
}

#[cfg(test)]
mod tests {
    use super::*;

    #[test]
    fn records_are_counted() {
        assert_eq!(
            records_in("1 0 3 0 32\n> 0 0 00\n2 10 0 0 32\nend 1 1\n"),
            2
        );
        assert_eq!(records_in("short\n"), 0);
    }
}
