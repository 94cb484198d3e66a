//! Runs of the program reach: its standard input, and arguments that it should not look at.

use cases::policy_bytes::{self, policy_bytes};
use cases::{reach, Random};
use programs::run::Run;

const ARGUMENTS: [&[u8]; 8] = [
    b"",
    b"0",
    b"31",
    b"all",
    b"-",
    b"--help",
    b"/dev/null",
    b"\xff",
];

/// What the program should print; it never complains.
pub fn printed(run: &Run) -> Option<String> {
    Some(reference::reach_text(&run.input))
}

fn of(input: Vec<u8>) -> Run {
    Run {
        arguments: Vec::new(),
        input,
    }
}

pub fn of_table(random: &Random) -> Run {
    of(policy_bytes(&reach::good(random)))
}

pub fn of_bad_policy(random: &Random) -> Run {
    of(policy_bytes(&reach::bad(random)))
}

pub fn of_length(random: &Random) -> Run {
    of(policy_bytes::of_length(&reach::good(random), random))
}

pub fn of_bytes(random: &Random) -> Run {
    of(policy_bytes::noise(random))
}

pub fn of_arguments(random: &Random) -> Run {
    let argument = |_| random.pick(&ARGUMENTS).to_vec();
    Run {
        arguments: (0..random.within(1..=3)).map(argument).collect(),
        ..of(policy_bytes(&reach::any(random)))
    }
}
