//! Runs of the program journey: its arguments and its standard input.

use cases::journey::{length, no_journey, Given, Lowest, Taste};
use cases::line;
use cases::policy_bytes::{self, policy_bytes};
use cases::Random;
use programs::run::Run;
use reference::JOURNEY_URLS;

/// Arguments that are no numbers.
const BAD_ARGUMENTS: [&[u8]; 18] = [
    b"",
    b" ",
    b"x",
    b"-",
    b"--",
    b"-h",
    b"--help",
    b"-1",
    b"+1",
    b" 1",
    b"1 ",
    b"0x1",
    b"1,2",
    b"1\n",
    b"\xff",
    b"4294967296",
    b"00000000001",
    b"99999999999",
];

/// What the program should print; nothing where it should complain.
pub fn printed(run: &Run) -> Option<String> {
    let arguments: Vec<&[u8]> = run.arguments.iter().map(Vec::as_slice).collect();
    let urls = reference::urls_of(&arguments)?;
    Some(reference::journey_text(&urls, &run.input))
}

fn of(given: &Given) -> Run {
    let decimal = |url: &u8| url.to_string().into_bytes();
    Run {
        arguments: given.urls.iter().map(decimal).collect(),
        input: policy_bytes(&given.policy),
    }
}

pub fn found(random: &Random) -> Run {
    let lowest = random.pick(&[Lowest::First, Lowest::Between, Lowest::Last]);
    of(&Given::of(lowest, Taste::Any, length(random), random))
}

pub fn none(random: &Random) -> Run {
    let taste = random.pick(&[Taste::Any, Taste::Upgraded, Taste::Excused]);
    let length = random.pick(&[length(random), length(random), JOURNEY_URLS]);
    of(&Given::of(Lowest::None, taste, length, random))
}

/// By the policy, or by a journey that is none.
pub fn refused(random: &Random) -> Run {
    let mut given = Given::good(random);
    match random.below(3) {
        0 => given = Given::of_bad_policy(random),
        1 => given.miss(random.below(given.urls.len()), random),
        _ => given.urls = no_journey(&given.policy, random),
    }
    of(&given)
}

/// Numbers with zeros in front, numbers that no byte has, and such as would name a URL were they cut to a byte.
pub fn of_odd_arguments(random: &Random) -> Run {
    let given = Given::good(random);
    let odd = |&url: &u8| {
        let width = random.within(1..=10);
        let number = match random.below(16) {
            0 => u32::from(url) + 256 * random.within(1..=9) as u32,
            1 => u32::from(url) | 1 << random.within(6..=31),
            2 => random.pick(&[63, 64, 255, 256, 257, 65_535, u32::MAX - 1, u32::MAX]),
            _ => u32::from(url),
        };
        format!("{number:0width$}").into_bytes()
    };
    Run {
        arguments: given.urls.iter().map(odd).collect(),
        ..of(&given)
    }
}

/// Arguments that are none, at each place, also behind more than may be. Now and then they are numbers after all.
pub fn of_bad_arguments(random: &Random) -> Run {
    let mut run = of(&Given::good(random));
    if random.one_in(4) {
        let longer = random.within(1..=40);
        run.arguments.resize(longer, b"1".to_vec());
    }
    let place = random.below(run.arguments.len());
    match random.below(6) {
        0 => run.arguments.clear(),
        1 => run.arguments[place] = without_zeros(line::no_number(random)),
        2 => run.arguments.push(random.pick(&BAD_ARGUMENTS).to_vec()),
        _ => run.arguments[place] = random.pick(&BAD_ARGUMENTS).to_vec(),
    }
    run
}

/// A policy that lacks bytes, or has more: a byte, a word, or many.
pub fn of_length(random: &Random) -> Run {
    let given = Given::good(random);
    Run {
        input: policy_bytes::of_length(&given.policy, random),
        ..of(&given)
    }
}

pub fn of_bytes(random: &Random) -> Run {
    Run {
        input: policy_bytes::noise(random),
        ..of(&Given::good(random))
    }
}

/// No argument can have a zero byte.
fn without_zeros(mut argument: Vec<u8>) -> Vec<u8> {
    argument.retain(|&byte| byte != 0);
    argument
}
