//! How long a test goes on, from which seed, and which case is replayed: the arguments that the tests share.

use std::env;
use std::io::IsTerminal;
use std::time::{Duration, Instant};

pub const DEFAULT_SECONDS: u64 = 10;
/// Fixed, so that two runs that are given nothing do the same.
pub const DEFAULT_SEED: u64 = 1;

#[derive(Clone, Copy, Debug, PartialEq, Eq)]
pub enum Extent {
    Seconds(u64),
    Cases(u64),
    /// One case; of it one call, or all.
    Replay {
        case: u64,
        call: Option<u64>,
    },
}

#[derive(Clone, Copy, Debug, PartialEq, Eq)]
pub struct Plan {
    pub seed: u64,
    pub extent: Extent,
}

impl Plan {
    /// `[SECONDS [SEED]]`, `--cases N [SEED]` or `--replay SEED:CASE[:CALL]`; nothing where it is none of these.
    pub fn parse(arguments: &[String]) -> Option<Plan> {
        let words: Vec<&str> = arguments.iter().map(String::as_str).collect();
        match words[..] {
            ["--replay", place] => replay(place),
            ["--cases", cases] => Plan::of(Extent::Cases(number(cases)?), None),
            ["--cases", cases, seed] => Plan::of(Extent::Cases(number(cases)?), Some(seed)),
            [] => Plan::of(Extent::Seconds(DEFAULT_SECONDS), None),
            [seconds] => Plan::of(Extent::Seconds(number(seconds)?), None),
            [seconds, seed] => Plan::of(Extent::Seconds(number(seconds)?), Some(seed)),
            _ => None,
        }
    }

    fn of(extent: Extent, seed: Option<&str>) -> Option<Plan> {
        let seed = match seed {
            Some(word) => number(word)?,
            None => DEFAULT_SEED,
        };
        Some(Plan { seed, extent })
    }
}

fn replay(place: &str) -> Option<Plan> {
    let parts: Option<Vec<u64>> = place.split(':').map(number).collect();
    let (seed, case, call) = match parts?[..] {
        [seed, case] => (seed, case, None),
        [seed, case, call] => (seed, case, Some(call)),
        _ => return None,
    };
    Some(Plan {
        seed,
        extent: Extent::Replay { case, call },
    })
}

/// Decimal digits, or hexadecimal ones after `0x`.
fn number(word: &str) -> Option<u64> {
    match word.strip_prefix("0x") {
        Some(digits) => u64::from_str_radix(digits, 16).ok(),
        None => word.parse().ok(),
    }
}

/// Whether every event was seen, where there was time for it: fewer cases than are enough may not see all, and are not asked to.
pub fn covered(extent: Extent, enough: u64, all: bool) -> bool {
    if let Extent::Cases(cases) = extent {
        if cases < enough {
            println!("{cases} cases are fewer than {enough}: not every event must be seen");
            return true;
        }
    }
    let said = ["FAILED: an event was never seen", "every event seen"];
    println!("{}", said[usize::from(all)]);
    all
}

/// The command that shows a case again, or a part of it.
pub fn print_replay(name: &str, place: &str) {
    let program = env::args().next().unwrap_or(name.into());
    println!("replay: {program} --replay {place}");
}

/// Says when a test is over and when a line about its progress is due.
pub struct Clock {
    extent: Extent,
    started: Instant,
    shown: Instant,
    shows: bool,
}

impl Clock {
    /// Long tests tell their progress, and all do on a terminal.
    pub fn start(extent: Extent) -> Clock {
        let now = Instant::now();
        let long = matches!(extent, Extent::Seconds(seconds) if seconds > 20);
        Clock {
            extent,
            started: now,
            shown: now,
            shows: long || std::io::stderr().is_terminal(),
        }
    }

    pub fn goes_on(&self, cases_done: u64) -> bool {
        match self.extent {
            Extent::Seconds(seconds) => self.started.elapsed() < Duration::from_secs(seconds),
            Extent::Cases(cases) => cases_done < cases,
            Extent::Replay { .. } => cases_done < 1,
        }
    }

    pub fn seconds(&self) -> f64 {
        self.started.elapsed().as_secs_f64()
    }

    /// Whether a second has gone since the last line.
    pub fn line_is_due(&mut self) -> bool {
        let due = self.shows && self.shown.elapsed() >= Duration::from_secs(1);
        if due {
            self.shown = Instant::now();
        }
        due
    }
}

#[cfg(test)]
mod tests {
    use super::*;

    fn parse(line: &str) -> Option<Plan> {
        let arguments: Vec<String> = line.split_whitespace().map(String::from).collect();
        Plan::parse(&arguments)
    }

    #[test]
    fn arguments_are_read() {
        let plan = |seed, extent| Some(Plan { seed, extent });
        assert_eq!(parse(""), plan(1, Extent::Seconds(10)));
        assert_eq!(parse("3"), plan(1, Extent::Seconds(3)));
        assert_eq!(parse("3 0x10"), plan(16, Extent::Seconds(3)));
        assert_eq!(parse("--cases 7"), plan(1, Extent::Cases(7)));
        assert_eq!(parse("--cases 7 8"), plan(8, Extent::Cases(7)));
        let all = Extent::Replay {
            case: 6,
            call: None,
        };
        assert_eq!(parse("--replay 5:6"), plan(5, all));
        let one = Extent::Replay {
            case: 6,
            call: Some(7),
        };
        assert_eq!(parse("--replay 5:6:7"), plan(5, one));
    }

    #[test]
    fn other_arguments_are_none() {
        for line in [
            "x",
            "1 x",
            "1 2 3",
            "--cases",
            "--replay 5",
            "--replay 1:2:3:4",
            "-1",
        ] {
            assert_eq!(parse(line), None, "{line}");
        }
    }
}
