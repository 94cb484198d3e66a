//! Holds the program zolherima to the proved library: what it prints about random policies, sessions, journeys and lists is read back and
//! compared with what the library answers; texts come back from words and words from texts; and no bytes as a file make it panic or hang.

mod advice;
mod context;
mod front;
mod given;
mod hostile;
mod import;
mod journey;
mod kind;
mod library;
mod outside;
mod reach;
mod read;
mod round_trip;
mod seen;
mod session;
mod tally;
mod words;
#[cfg(test)]
mod wrong;

use std::io;
use std::panic::{self, AssertUnwindSafe};
use std::process::ExitCode;
use std::thread;

use cases::Random;
use programs::counts::Column;
use programs::{suite, Checked, Kind as _, Suite};

use context::{Context, Verdict};
use front::{Front, Program};
use given::Given;
use kind::Kind;
use outside::Outside;
use seen::Seen;

/// One in so many inputs is given to the programs too: starting one takes longer than all else.
const OUTSIDE: usize = 8;

struct FrontDoor {
    front: Box<dyn Front>,
    outside: Option<Outside>,
    seen: Seen,
    /// What was tried once, before all else.
    begun: Verdict,
}

impl FrontDoor {
    fn new(front: Box<dyn Front>, outside: Option<Outside>) -> FrontDoor {
        FrontDoor {
            front,
            seen: Seen::new(&context::events(outside.is_some())),
            outside,
            begun: Ok(()),
        }
    }

    /// Tries what is tried once; the first case tells what came of it.
    fn begin(mut self) -> FrontDoor {
        let tried = panic::catch_unwind(AssertUnwindSafe(|| {
            self.outside.as_ref().map_or(Ok(()), outside::statuses)?;
            hostile::large::check(&mut self.context(false))
        }));
        self.begun = told(tried);
        self
    }

    fn context(&mut self, is_outside: bool) -> Context<'_> {
        Context {
            front: self.front.as_ref(),
            seen: &mut self.seen,
            outside: self.outside.as_ref().filter(|_| is_outside),
        }
    }

    fn verdict(&mut self, given: &Given, is_outside: bool) -> Verdict {
        self.begun.clone()?;
        let mut context = self.context(is_outside);
        match given {
            Given::Words(words) => words::check(words, &mut context),
            Given::RoundTrip(walk) => round_trip::check(walk, &mut context),
            Given::Session(walk) => session::check(walk, &mut context),
            Given::Reach(walk) => reach::check(walk, &mut context),
            Given::Advice(text) => advice::check(text, &mut context),
            Given::Journey { walk, urls } => journey::check(walk, urls, &mut context),
            Given::Tally { walk, list } => tally::check(walk, list, &mut context),
            Given::Import { text, lines } => import::check(text, lines, &mut context),
            Given::Hostile(text) => hostile::check(text, &mut context),
        }
    }
}

impl Suite for FrontDoor {
    const NAME: &'static str = "front-door-test";
    const USAGE: &'static str = "usage: front-door-test PROGRAMS [SECONDS [SEED]]
       front-door-test PROGRAMS --cases N [SEED]
       front-door-test PROGRAMS --replay SEED:CASE
PROGRAMS is the folder of the proved programs, target/bin; or - for none of them. zolherima is looked for beside this program.";
    const COLUMNS: &'static [Column] = &[];
    const COVERING: (u64, &'static str) = (40 * Kind::CYCLE, "kind and event");

    type Kind = Kind;
    type Draw = bool;

    fn draw(random: &Random, _: usize) -> bool {
        random.one_in(OUTSIDE)
    }

    fn check(&mut self, given: &Given, is_outside: bool) -> io::Result<Checked> {
        let caught = panic::catch_unwind(AssertUnwindSafe(|| self.verdict(given, is_outside)));
        Ok(Checked {
            verdict: told(caught),
            expected: String::new(),
            found: Vec::new(),
            records: 1,
            more: Vec::new(),
        })
    }

    fn print_more(&self) {
        self.seen.print();
    }

    fn missing(&self) -> Vec<&'static str> {
        self.seen.missing()
    }
}

/// A panic is a difference.
fn told(caught: thread::Result<Verdict>) -> Verdict {
    caught.unwrap_or_else(|panic| Err(context::panicked(panic.as_ref())))
}

fn main() -> ExitCode {
    suite::main(|folder| FrontDoor::new(Box::new(Program), Outside::at(folder)).begin())
}

#[cfg(test)]
mod tests {
    use super::*;

    #[test]
    fn a_few_cases_have_no_difference() {
        let mut suite = FrontDoor::new(Box::new(Program), None);
        let told = suite::first_difference(&mut suite, 2 * Kind::CYCLE);
        assert_eq!(told.expect("nothing is run"), None);
    }
}
