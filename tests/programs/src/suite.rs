//! A test from its arguments to its exit status.

use std::env;
use std::fs;
use std::io;
use std::process::ExitCode;

use cases::plan::{Clock, DEFAULT_SEED};
use cases::{Extent, Plan, Random};

use crate::counts::{Column, Counts};
use crate::{Input, Kind};

/// What a suite is given.
pub type Given<S> = <<S as Suite>::Kind as Kind>::Input;

/// What makes a test: its inputs, and what it asks of each of them.
pub trait Suite: Sized {
    /// The test's own name, which is also that of the files that it leaves.
    const NAME: &'static str;
    const USAGE: &'static str;
    /// What an input has so and so many of.
    const RECORDS: &'static str = "records";
    /// What it counts beside inputs, bytes and records.
    const COLUMNS: &'static [Column];
    /// In so many cases all occurs that must occur, and what that is.
    const COVERING: (u64, &'static str);

    type Kind: Kind;
    /// What is drawn for an input beside the input.
    type Draw;

    /// Of a case that has so many inputs.
    fn draw(random: &Random, inputs: usize) -> Self::Draw;

    /// Holds one input to what should come of it.
    fn check(&mut self, input: &Given<Self>, draw: Self::Draw) -> io::Result<Checked>;

    /// Prints what it has to tell beside the table.
    fn print_more(&self) {}

    /// The events that did not occur.
    fn missing(&self) -> Vec<&'static str> {
        Vec::new()
    }
}

/// What came of one input.
pub struct Checked {
    /// Nothing, or what differs first.
    pub verdict: Result<(), String>,
    pub expected: String,
    pub found: Vec<u8>,
    /// How many records the input has, and what else is counted.
    pub records: u64,
    pub more: Vec<u64>,
}

/// Does what the arguments say. The first of them names the program, of which `make` makes the test.
pub fn main<S: Suite>(make: impl FnOnce(&str) -> S) -> ExitCode {
    let arguments: Vec<String> = env::args().skip(1).collect();
    let plan = arguments.get(1..).and_then(Plan::parse);
    let (Some(program), Some(plan)) = (arguments.first(), plan) else {
        eprintln!("{}", S::USAGE);
        return ExitCode::from(2);
    };
    let mut test = Test {
        suite: make(program),
        program: program.clone(),
        plan,
        counts: Counts::new(S::RECORDS, S::COLUMNS),
    };
    match test.go() {
        Ok(true) => ExitCode::SUCCESS,
        Ok(false) => ExitCode::FAILURE,
        Err(error) => {
            eprintln!("{}: {program}: {error}", S::NAME);
            ExitCode::from(2)
        }
    }
}

/// The first difference that some cases find: with a suite that has a fault, this tests the test.
pub fn first_difference<S: Suite>(suite: &mut S, cases: u64) -> io::Result<Option<String>> {
    for case in 0..cases {
        for (input, draw) in Case::<S>::of(DEFAULT_SEED, case).inputs {
            if let Err(difference) = suite.check(&input, draw)?.verdict {
                return Ok(Some(difference));
            }
        }
    }
    Ok(None)
}

/// A case: the inputs of a kind, each with what is drawn for it.
struct Case<S: Suite> {
    kind: S::Kind,
    inputs: Vec<(Given<S>, S::Draw)>,
}

impl<S: Suite> Case<S> {
    fn of(seed: u64, case: u64) -> Case<S> {
        let random = Random::of_case(seed, case);
        let kind = S::Kind::of_case(case);
        let inputs = kind.inputs(&random);
        let count = inputs.len();
        let draws = inputs
            .iter()
            .map(|_| S::draw(&random, count))
            .collect::<Vec<_>>();
        Case {
            kind,
            inputs: inputs.into_iter().zip(draws).collect(),
        }
    }
}

struct Test<S: Suite> {
    suite: S,
    program: String,
    plan: Plan,
    counts: Counts<S::Kind>,
}

impl<S: Suite> Test<S> {
    fn go(&mut self) -> io::Result<bool> {
        if let Extent::Replay { case, call } = self.plan.extent {
            return self.replay(case, call);
        }
        let mut clock = Clock::start(self.plan.extent);
        println!("seed {}", self.plan.seed);
        let mut done = 0;
        while clock.goes_on(done) {
            if !self.check_case(done)? {
                return Ok(false);
            }
            done += 1;
            if clock.line_is_due() {
                eprintln!("{}", self.counts.progress(clock.seconds()));
            }
        }
        self.counts.print();
        self.suite.print_more();
        println!("no difference");
        Ok(self.covered(done))
    }

    /// Whether every kind and event occurred, where there were cases enough for it.
    fn covered(&self, cases: u64) -> bool {
        let (enough, what) = S::COVERING;
        if matches!(self.plan.extent, Extent::Cases(_)) && cases < enough {
            println!("{cases} cases are fewer than {enough}: not every {what} must occur");
            return true;
        }
        let kinds: Vec<&str> = self.counts.missing().map(Kind::name).collect();
        let events = self.suite.missing();
        for name in &kinds {
            println!("FAILED: this kind did not occur: {name}");
        }
        for name in &events {
            println!("FAILED: this event did not occur: {name}");
        }
        kinds.is_empty() && events.is_empty()
    }

    /// Whether each input of a case had what should come of it.
    fn check_case(&mut self, case: u64) -> io::Result<bool> {
        let Case { kind, inputs } = Case::<S>::of(self.plan.seed, case);
        for (index, (input, draw)) in inputs.into_iter().enumerate() {
            let checked = self.suite.check(&input, draw)?;
            if let Err(difference) = &checked.verdict {
                println!("DIFFERENCE in case {case}, input {index} ({})", kind.name());
                println!("{difference}");
                self.save(case, index, &input, &checked)?;
                self.print_replay(case, index);
                return Ok(false);
            }
            let Checked { records, more, .. } = checked;
            self.counts.add(kind, input.length(), records, &more);
        }
        Ok(true)
    }

    /// Saves the inputs of a case, or one of them, with what should be printed and what is.
    fn replay(&mut self, case: u64, only: Option<u64>) -> io::Result<bool> {
        let Case { kind, inputs } = Case::<S>::of(self.plan.seed, case);
        let mut passed = true;
        for (index, (input, draw)) in inputs.into_iter().enumerate() {
            if only.is_some_and(|only| only != index as u64) {
                continue;
            }
            let checked = self.suite.check(&input, draw)?;
            println!("input {index} ({}), {} bytes", kind.name(), input.length());
            let difference = checked.verdict.as_ref().err();
            println!("{}", difference.map_or("no difference", String::as_str));
            self.save(case, index, &input, &checked)?;
            passed &= checked.verdict.is_ok();
        }
        Ok(passed)
    }

    fn save(&self, case: u64, index: usize, input: &Given<S>, checked: &Checked) -> io::Result<()> {
        let mut parts = input.parts();
        parts.push(("expected", checked.expected.as_bytes().into()));
        parts.push(("found", (&checked.found).into()));
        for (part, bytes) in parts {
            let name = format!("{}-{}-{case}-{index}.{part}", S::NAME, self.plan.seed);
            let path = env::temp_dir().join(name);
            fs::write(&path, bytes)?;
            println!("{part}: {}", path.display());
        }
        Ok(())
    }

    fn print_replay(&self, case: u64, index: usize) {
        let us = env::args().next().unwrap_or(S::NAME.into());
        let Test { program, plan, .. } = self;
        println!(
            "replay: {us} {program} --replay {}:{case}:{index}",
            plan.seed
        );
    }
}

#[cfg(test)]
mod tests {
    use super::*;

    /// Finds fault with one letter, and tells of events that did not occur.
    struct Letters {
        wrong: char,
        missing: Vec<&'static str>,
    }

    impl Suite for Letters {
        const NAME: &'static str = "letters";
        const USAGE: &'static str = "";
        const COLUMNS: &'static [Column] = &[];
        const COVERING: (u64, &'static str) = (4, "letter");

        type Kind = char;
        type Draw = ();

        fn draw(_: &Random, _: usize) {}

        fn check(&mut self, input: &Vec<u8>, (): ()) -> io::Result<Checked> {
            let right = input[..] != [self.wrong as u8];
            Ok(Checked {
                verdict: right.then_some(()).ok_or("wrong".to_string()),
                expected: String::new(),
                found: Vec::new(),
                records: 0,
                more: Vec::new(),
            })
        }

        fn missing(&self) -> Vec<&'static str> {
            self.missing.clone()
        }
    }

    fn passes(extent: Extent, missing: &[&'static str]) -> bool {
        let mut test = Test {
            suite: Letters {
                wrong: 'x',
                missing: missing.to_vec(),
            },
            program: String::new(),
            plan: Plan { seed: 1, extent },
            counts: Counts::new(Letters::RECORDS, &[]),
        };
        test.go().expect("nothing is run")
    }

    #[test]
    fn what_did_not_occur_fails_the_test() {
        assert!(passes(Extent::Cases(4), &[]));
        assert!(!passes(Extent::Cases(4), &["an event"]));
        let no_case = Extent::Seconds(0);
        assert!(!passes(no_case, &[]));
    }

    #[test]
    fn few_cases_need_not_have_everything() {
        assert!(passes(Extent::Cases(3), &["an event"]));
    }

    #[test]
    fn the_first_difference_is_found() {
        let first = |wrong| {
            let missing = Vec::new();
            first_difference(&mut Letters { wrong, missing }, 4).expect("nothing is run")
        };
        assert_eq!(first('b'), Some("wrong".to_string()));
        assert_eq!(first('x'), None);
    }
}
