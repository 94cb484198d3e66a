//! Random journeys with policies, by kind, and random runs of the program.

use cases::journey::{length, no_journey, Given, Lowest, Taste};
use cases::policy_bytes::policy_bytes;
use cases::Random;
use programs::input::Parts;
use programs::run::Run;
use reference::JOURNEY_URLS as MOST;

use crate::run;

pub enum Input {
    /// For the library.
    Journey(Given),
    /// For the program.
    Run(Run),
}

impl programs::Input for Input {
    /// A policy as the program reads it.
    fn parts(&self) -> Parts<'_> {
        match self {
            Input::Journey(Given { policy, urls }) => vec![
                ("policy", policy_bytes(policy).into()),
                ("journey", urls.into()),
            ],
            Input::Run(run) => run.parts(),
        }
    }
}

#[derive(Clone, Copy, Debug, PartialEq, Eq)]
pub enum Kind {
    /// Connection 0 carries the journey.
    First,
    /// A connection 1 to 30 does, and none below.
    Between,
    /// Connection 31 alone does.
    Last,
    /// No connection does.
    None,
    /// Journeys to URLs that have a partner.
    Upgraded,
    /// Journeys to entries that lack a writer.
    Excused,
    /// Any URLs of any policy.
    Rows,
    /// Another URL in each place of a journey.
    Changed,
    /// A number without a row in each place of a journey.
    NoRow,
    /// Every number, alone or behind a journey.
    Numbers,
    /// No URL.
    Empty,
    /// As many URLs as may be, and one more.
    Longest,
    /// More URLs than may be.
    Long,
    /// Random bytes, of all or of few values.
    Bytes,
    /// A policy that is damaged, or has another length.
    BadPolicy,
    /// Runs of the program that find a connection.
    RunFound,
    /// Runs that find none.
    RunNone,
    /// Runs whose policy or journey is refused.
    RunRefused,
    /// Runs with arguments that are rare.
    OddArguments,
    /// Runs with arguments that are none.
    BadArguments,
    /// Runs on an input of every length.
    InputLength,
    /// Runs on random bytes.
    RunBytes,
}

impl programs::Kind for Kind {
    const ALL: &'static [Kind] = &[
        Kind::First,
        Kind::Between,
        Kind::Last,
        Kind::None,
        Kind::Upgraded,
        Kind::Excused,
        Kind::Rows,
        Kind::Changed,
        Kind::NoRow,
        Kind::Numbers,
        Kind::Empty,
        Kind::Longest,
        Kind::Long,
        Kind::Bytes,
        Kind::BadPolicy,
        Kind::RunFound,
        Kind::RunNone,
        Kind::RunRefused,
        Kind::OddArguments,
        Kind::BadArguments,
        Kind::InputLength,
        Kind::RunBytes,
    ];

    /// Each occurs early. A run takes as long as many journeys, so there are few of them.
    const ORDER: &'static [Kind] = &[
        Kind::Between,
        Kind::First,
        Kind::RunFound,
        Kind::None,
        Kind::Upgraded,
        Kind::NoRow,
        Kind::Last,
        Kind::RunNone,
        Kind::Excused,
        Kind::Between,
        Kind::BadPolicy,
        Kind::OddArguments,
        Kind::Rows,
        Kind::None,
        Kind::Changed,
        Kind::BadArguments,
        Kind::Upgraded,
        Kind::Longest,
        Kind::Last,
        Kind::RunRefused,
        Kind::Excused,
        Kind::Numbers,
        Kind::Between,
        Kind::InputLength,
        Kind::None,
        Kind::Long,
        Kind::Upgraded,
        Kind::RunBytes,
        Kind::Changed,
        Kind::Bytes,
        Kind::Excused,
        Kind::Empty,
    ];

    type Input = Input;

    fn name(self) -> &'static str {
        match self {
            Kind::First => "on connection 0",
            Kind::Between => "on connection 1 to 30",
            Kind::Last => "on connection 31",
            Kind::None => "on none",
            Kind::Upgraded => "partners",
            Kind::Excused => "entries",
            Kind::Rows => "any URLs",
            Kind::Changed => "a URL changed",
            Kind::NoRow => "a number without a row",
            Kind::Numbers => "every number",
            Kind::Empty => "empty",
            Kind::Longest => "longest",
            Kind::Long => "long",
            Kind::Bytes => "random bytes",
            Kind::BadPolicy => "damaged policy",
            Kind::RunFound => "run: a connection",
            Kind::RunNone => "run: none",
            Kind::RunRefused => "run: refused",
            Kind::OddArguments => "run: odd arguments",
            Kind::BadArguments => "run: bad arguments",
            Kind::InputLength => "run: length of the input",
            Kind::RunBytes => "run: random bytes",
        }
    }

    fn inputs(self, random: &Random) -> Vec<Input> {
        let journeys = self.journeys(random).into_iter().map(Input::Journey);
        let runs = self.runs(random).into_iter().map(Input::Run);
        journeys.chain(runs).collect()
    }
}

impl Kind {
    /// None but where it is a kind of runs.
    fn runs(self, random: &Random) -> Vec<Run> {
        let runs = |count, make: fn(&Random) -> Run| (0..count).map(|_| make(random)).collect();
        match self {
            Kind::RunFound => runs(FEW, run::found),
            Kind::RunNone => runs(SEVERAL, run::none),
            Kind::RunRefused => runs(FEW, run::refused),
            Kind::OddArguments => runs(SEVERAL, run::of_odd_arguments),
            Kind::BadArguments => runs(SEVERAL, run::of_bad_arguments),
            Kind::InputLength => runs(FEW, run::of_length),
            Kind::RunBytes => runs(FEW, run::of_bytes),
            _ => Vec::new(),
        }
    }

    /// None but where it is a kind of journeys.
    fn journeys(self, random: &Random) -> Vec<Given> {
        match self {
            Kind::First => told(Lowest::First, random),
            Kind::Between => told(Lowest::Between, random),
            Kind::Last => told(Lowest::Last, random),
            Kind::None => told(Lowest::None, random),
            Kind::Upgraded => to_taste(Taste::Upgraded, random),
            Kind::Excused => to_taste(Taste::Excused, random),
            Kind::Rows => some(|| Given::of_rows(random)),
            Kind::Changed => at_each_place(Given::change, random),
            Kind::NoRow => at_each_place(Given::miss, random),
            Kind::Numbers => numbers(random),
            Kind::Empty => vec![with_urls(&Given::good(random), Vec::new())],
            Kind::Longest => longest(random),
            Kind::Long => long(random),
            Kind::Bytes => bytes(random),
            Kind::BadPolicy => some(|| Given::of_bad_policy(random)),
            _ => Vec::new(),
        }
    }
}

/// How many runs a case has: where much is printed or arguments are many, more.
const FEW: usize = 4;
const SEVERAL: usize = 12;
/// How many journeys a case has that are made one by one.
const SOME: usize = 32;

fn some(make: impl Fn() -> Given) -> Vec<Given> {
    (0..SOME).map(|_| make()).collect()
}

fn told(lowest: Lowest, random: &Random) -> Vec<Given> {
    some(|| Given::of(lowest, Taste::Any, length(random), random))
}

fn to_taste(taste: Taste, random: &Random) -> Vec<Given> {
    some(|| {
        let all = [Lowest::First, Lowest::Between, Lowest::Last, Lowest::None];
        Given::of(random.pick(&all), taste, length(random), random)
    })
}

fn with_urls(given: &Given, urls: Vec<u8>) -> Given {
    Given {
        urls,
        ..given.clone()
    }
}

/// Something done to a journey at each of its places, and so with a few journeys.
fn at_each_place(change: fn(&mut Given, usize, &Random), random: &Random) -> Vec<Given> {
    let mut all = Vec::new();
    for _ in 0..FEW {
        let whole = Given::good(random);
        for place in 0..whole.urls.len() {
            let mut given = whole.clone();
            change(&mut given, place, random);
            all.push(given);
        }
    }
    all
}

/// Alone, or behind a journey.
fn numbers(random: &Random) -> Vec<Given> {
    let given = Given::good(random);
    let most = random.pick(&[0, MOST - 1]);
    let front = &given.urls[..given.urls.len().min(most)];
    let behind = |url| with_urls(&given, [front, &[url]].concat());
    (0..=u8::MAX).map(behind).collect()
}

/// Of any sort, 15 to 17 URLs if the connection goes so far.
fn longest(random: &Random) -> Vec<Given> {
    let all = [Lowest::First, Lowest::Between, Lowest::Last, Lowest::None];
    let tastes = [Taste::Any, Taste::Upgraded, Taste::Excused];
    some(|| {
        let length = random.pick(&[MOST - 1, MOST, MOST, MOST + 1]);
        Given::of(random.pick(&all), random.pick(&tastes), length, random)
    })
}

/// Carried as far as a journey may go, and then more of the same or of anything.
fn long(random: &Random) -> Vec<Given> {
    some(|| {
        let any = random.within(MOST + 1..=1_000);
        let length = random.pick(&[MOST + 1, MOST + 2, 2 * MOST, 255, 256, 257, any]);
        let lowest = random.pick(&[Lowest::First, Lowest::Between, Lowest::None]);
        let mut given = Given::of(lowest, Taste::Any, MOST, random);
        let more = no_journey(&given.policy, random);
        let end = random.pick(&[given.urls.as_slice(), &more, &[0], &[255]]);
        let end = if end.is_empty() { &[0] } else { end };
        let urls = given.urls.iter().chain(end.iter().cycle());
        given.urls = urls.take(length).copied().collect();
        given
    })
}

/// Of all values, or of those that rows have.
fn bytes(random: &Random) -> Vec<Given> {
    some(|| {
        let mut given = Given::good(random);
        let most = random.pick(&[u8::MAX, 64, 8]);
        let length = random.within(0..=20);
        given.urls = (0..length).map(|_| random.byte_below(most)).collect();
        given
    })
}
