//! Feeds random calls and whole runs to the proved library and to two other implementations of document 01, and compares answer, state,
//! output and every byte around them after each call.

#[cfg(test)]
mod address_faults;
#[cfg(test)]
mod asked;
mod buffers;
mod case;
mod checker;
mod difference;
#[cfg(test)]
mod entry_faults;
#[cfg(test)]
mod faults;
#[cfg(test)]
mod generated;
#[cfg(test)]
mod https_faults;
#[cfg(test)]
mod missing_faults;
mod monitors;
mod replay;
mod tally;

use std::env;
use std::panic::{catch_unwind, AssertUnwindSafe};
use std::process::ExitCode;

use cases::plan::{covered, print_replay, Clock};
use cases::{Extent, Plan};

use case::{play, Failure};
use checker::Checker;
use tally::Tally;

const NAME: &str = "differential";
const USAGE: &str = "usage: differential [SECONDS [SEED]]
       differential --cases N [SEED]
       differential --replay SEED:CASE[:CALL]";

/// So many cases see every event, whatever the seed; fewer may not, and are not asked to.
const COVERING_CASES: u64 = 5_000;

fn main() -> ExitCode {
    let arguments: Vec<String> = env::args().skip(1).collect();
    let Some(plan) = Plan::parse(&arguments) else {
        eprintln!("{USAGE}");
        return ExitCode::from(2);
    };
    let passed = match plan.extent {
        Extent::Replay { case, call } => replay::replay(plan.seed, case, call),
        Extent::Seconds(_) | Extent::Cases(_) => test(plan),
    };
    if passed {
        ExitCode::SUCCESS
    } else {
        ExitCode::FAILURE
    }
}

fn test(plan: Plan) -> bool {
    let mut checker = Checker::new(Box::new(monitors::library));
    let mut tally = Tally::default();
    let mut clock = Clock::start(plan.extent);
    println!("seed {}", plan.seed);
    while clock.goes_on(tally.cases) {
        if !passes(plan.seed, &mut checker, &mut tally) {
            return false;
        }
        if clock.line_is_due() {
            eprintln!("{}", tally.progress(clock.seconds(), &checker.seen));
        }
    }
    tally.print(clock.seconds(), &checker.seen);
    println!("no difference");
    let all = checker.seen.missing().is_empty();
    covered(plan.extent, COVERING_CASES, all)
}

/// Checks the next case, and tells where it fails.
fn passes(seed: u64, checker: &mut Checker, tally: &mut Tally) -> bool {
    let case = tally.cases;
    // A monitor that panics has failed too, and its case is wanted.
    let checked = catch_unwind(AssertUnwindSafe(|| {
        play(seed, case, |_, call, random| {
            let checked = checker.check(call, random);
            checked.map(|answer| tally.add_call(answer))
        })
    }));
    match checked {
        Ok(Ok(played)) => {
            tally.add_case(&played);
            true
        }
        Ok(Err(Failure { call, error })) => {
            println!("DIFFERENCE in case {case}, call {call}: {error}");
            print_replay(NAME, &format!("{seed}:{case}:{call}"));
            false
        }
        Err(_) => {
            println!("PANIC in case {case}");
            print_replay(NAME, &format!("{seed}:{case}"));
            false
        }
    }
}
