//! Runs pairs of lists of records through the proved library, of which the same remains once the secrecy rule or the forgery rule has struck
//! what it strikes, and compares what the rule says is then equal.

mod attempts;
mod case;
mod compare;
mod events;
#[cfg(test)]
mod faults;
mod maker;
mod notes;
mod policy;
#[cfg(test)]
mod readings;
mod record;
mod replay;
mod rule;
mod run;
mod scope;
mod set;
mod tally;

use std::env;
use std::panic::{catch_unwind, AssertUnwindSafe};
use std::process::ExitCode;

use cases::plan::{covered, print_replay, Clock};
use cases::{Extent, Plan};

use rule::{Forgery, Rule, Secrecy};
use tally::Tally;

const NAME: &str = "pairs-test";
const USAGE: &str = "usage: pairs-test [SECONDS [SEED]]
       pairs-test --cases N [SEED]
       pairs-test --replay SEED:CASE";

/// So many cases see every event, whatever the seed; fewer may not, and are not asked to.
const COVERING_CASES: u64 = 5_000;

/// The rules, in the order of the cases, over and over.
const RULES: [&dyn Rule; 2] = [&Secrecy, &Forgery];

fn main() -> ExitCode {
    let arguments: Vec<String> = env::args().skip(1).collect();
    let Some(Plan { seed, extent }) = Plan::parse(&arguments) else {
        return wrong_arguments();
    };
    let passed = match extent {
        Extent::Replay { call: Some(_), .. } => return wrong_arguments(),
        Extent::Replay { case, .. } => replay::replay(rule_of(case), seed, case),
        Extent::Seconds(_) | Extent::Cases(_) => test(seed, extent),
    };
    match passed {
        true => ExitCode::SUCCESS,
        false => ExitCode::FAILURE,
    }
}

fn wrong_arguments() -> ExitCode {
    eprintln!("{USAGE}");
    ExitCode::from(2)
}

fn rule_of(case: u64) -> &'static dyn Rule {
    RULES[case as usize % RULES.len()]
}

fn test(seed: u64, extent: Extent) -> bool {
    let mut tallies = RULES.map(Tally::new);
    let mut clock = Clock::start(extent);
    println!("seed {seed}");
    let mut done = 0;
    while clock.goes_on(done) {
        let place = done as usize % RULES.len();
        if !passes(&mut tallies[place], seed, done) {
            return false;
        }
        done += 1;
        if clock.line_is_due() {
            let [secrecy, forgery] = tallies.each_ref().map(Tally::progress);
            eprintln!("{:.0} s: {secrecy}; {forgery}", clock.seconds());
        }
    }
    tallies.iter().for_each(Tally::print);
    println!("no difference");
    let all = tallies.iter().all(Tally::has_seen_all);
    covered(extent, COVERING_CASES, all)
}

/// Checks a case, and tells where it fails.
fn passes(tally: &mut Tally, seed: u64, case: u64) -> bool {
    // A monitor that panics has failed too, and its case is wanted.
    let checked = catch_unwind(AssertUnwindSafe(|| tally.check(&run::library, seed, case)));
    let name = tally.rule.name();
    match checked {
        Ok(Ok(())) => return true,
        Ok(Err(difference)) => println!("DIFFERENCE in case {case} ({name}) {difference}"),
        Err(_) => println!("PANIC in case {case} ({name})"),
    }
    print_replay(NAME, &format!("{seed}:{case}"));
    false
}
