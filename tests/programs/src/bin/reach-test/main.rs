//! Counts the URLs that connections reach under random policies, by the library and by the program reach, and compares all that they say with what
//! the reference says; and holds pairs of policies to what is claimed of them.

mod checker;
#[cfg(test)]
mod faults;
mod input;
mod pairs;
#[cfg(test)]
mod pairs_faults;
mod run;
#[cfg(test)]
mod run_faults;

use std::io;
use std::process::ExitCode;

use cases::reach::Pair;
use cases::{events, Random};
use programs::counts::Column;
use programs::program::{self, Program};
use programs::run::{left_out, Draw};
use programs::{suite, Checked, Suite};
use reference::numbers::{ACCEPTED, POLICY_BAD};
use reference::Reach;

use checker::{Checker, Compared};
use input::{Input, Kind};
use pairs::{PairEvent, PairSeen};

/// The last column: how many inputs went to the program.
const TO_REACH: usize = 3;

struct Tables {
    checker: Checker,
    pairs: PairSeen,
    program: Option<Program>,
}

impl Suite for Tables {
    const NAME: &'static str = "reach-test";
    const USAGE: &'static str = "usage: reach-test PATH_TO_REACH [SECONDS [SEED]]
       reach-test PATH_TO_REACH --cases N [SEED]
       reach-test PATH_TO_REACH --replay SEED:CASE[:INPUT]
--library in place of PATH_TO_REACH tests the library alone, and leaves out what is for the program.";
    const RECORDS: &'static str = "reached";
    const COLUMNS: &'static [Column] = &[
        ("number 0", 10),
        ("number 2", 10),
        ("pairs", 9),
        ("to reach", 10),
    ];
    const COVERING: (u64, &'static str) = (1_000, "kind and event");

    type Kind = Kind;
    type Draw = Draw;

    fn draw(random: &Random, _: usize) -> Draw {
        Draw::random(random)
    }

    fn check(&mut self, input: &Input, draw: Draw) -> io::Result<Checked> {
        let random = Random::new(draw.place);
        match (input, &self.program) {
            (Input::Policy(policy), _) => Ok(self.check_policy(policy, &random)),
            (Input::Pair(pair), _) => Ok(self.check_pair(pair, &random)),
            (Input::Run(run), Some(program)) => {
                run.check(run::printed(run), 0, TO_REACH, program, draw.arrival)
            }
            (Input::Run(_), None) => Ok(left_out(TO_REACH)),
        }
    }

    fn print_more(&self) {
        events::print(&self.events());
    }

    fn missing(&self) -> Vec<&'static str> {
        events::never_seen(&self.events())
    }
}

impl Tables {
    fn new(table: checker::Table, program: Option<Program>) -> Tables {
        Tables {
            checker: Checker::new(table),
            pairs: PairSeen::new(),
            program,
        }
    }

    /// Of a policy for the library.
    fn check_policy(&mut self, policy: &[u32], random: &Random) -> Checked {
        let compared = self.checker.check(policy, random);
        let verdict = compared.verdict.clone();
        checked(&[compared], 0, verdict)
    }

    /// Of two of them: first what is claimed, which the library alone is asked, and then what the reference says.
    fn check_pair(&mut self, pair: &Pair, random: &Random) -> Checked {
        let policies = [&pair.before, &pair.after];
        let compared = policies.map(|policy| self.checker.check(policy, random));
        let claimed = match compared.each_ref().map(|of| of.found) {
            [Some(before), Some(after)] => pairs::judge(pair, &[before, after], &mut self.pairs),
            _ => Ok(()),
        };
        let [before, after] = compared.each_ref().map(|of| of.verdict.clone());
        checked(&compared, 1, claimed.and(before).and(after))
    }

    fn events(&self) -> Vec<events::Counted> {
        let counted = |event: PairEvent| (event.name(), self.pairs.count(event));
        let pairs = PairEvent::ALL.map(counted);
        self.checker.events().into_iter().chain(pairs).collect()
    }
}

/// Of policies that went to the library alone.
fn checked(compared: &[Compared], pairs: u64, verdict: Result<(), String>) -> Checked {
    let expected = || compared.iter().map(|of| of.expected);
    let with = |number| expected().filter(|it| it.number == number).count() as u64;
    let found = compared.iter().filter_map(|of| of.found);
    Checked {
        verdict,
        expected: expected().map(|it| it.to_string()).collect(),
        found: found
            .map(|it: Reach| it.to_string())
            .collect::<String>()
            .into(),
        records: expected().map(|it| u64::from(it.all)).sum(),
        more: vec![with(ACCEPTED), with(POLICY_BAD), pairs, 0],
    }
}

fn main() -> ExitCode {
    suite::main(|path| {
        Tables::new(
            checker::library(),
            program::unless_alone(path, Tables::NAME),
        )
    })
}
