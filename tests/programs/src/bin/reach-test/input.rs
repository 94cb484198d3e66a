//! Random policies and pairs of them, by kind, and random runs of the program.

use cases::labels::{CONNECTIONS_AT, HTTPS_HOSTS_AT, PARTNERS_AT, POLICY_WORDS};
use cases::policy_bytes::policy_bytes;
use cases::reach::{self, Change, Pair, Sort};
use cases::Random;
use programs::input::Parts;
use programs::run::Run;

use crate::run;

pub enum Input {
    /// For the library.
    Policy(Vec<u32>),
    Pair(Pair),
    /// For the program.
    Run(Run),
}

impl programs::Input for Input {
    /// A policy as the program reads it.
    fn parts(&self) -> Parts<'_> {
        match self {
            Input::Policy(policy) => vec![("policy", policy_bytes(policy).into())],
            Input::Pair(Pair { before, after, .. }) => vec![
                ("before", policy_bytes(before).into()),
                ("after", policy_bytes(after).into()),
            ],
            Input::Run(run) => run.parts(),
        }
    }
}

#[derive(Clone, Copy, Debug, PartialEq, Eq)]
pub enum Kind {
    /// Policies of any style.
    Any,
    /// Every connection fits every URL, but for a few words.
    Full,
    /// Rows have partners, and often differ from them.
    Listed,
    /// Rows are empty, and connections have no readers.
    Hollow,
    /// One connection fits the only URL, or nearly does.
    Single,
    /// A policy that is damaged, or has another length.
    BadPolicy,
    /// A policy of many lengths.
    Lengths,
    /// Random words, or one word over and over.
    Words,
    /// Two policies that differ in a URL.
    OtherUrl,
    /// Two that differ in a connection.
    OtherConnection,
    /// Two that differ in what is not looked at.
    OtherRest,
    /// Runs of the program that print a table.
    RunTable,
    /// Runs on a policy that is damaged.
    RunRefused,
    /// Runs on an input of every length.
    InputLength,
    /// Runs on random bytes.
    RunBytes,
    /// Runs with arguments.
    Arguments,
}

impl programs::Kind for Kind {
    const ALL: &'static [Kind] = &[
        Kind::Any,
        Kind::Full,
        Kind::Listed,
        Kind::Hollow,
        Kind::Single,
        Kind::BadPolicy,
        Kind::Lengths,
        Kind::Words,
        Kind::OtherUrl,
        Kind::OtherConnection,
        Kind::OtherRest,
        Kind::RunTable,
        Kind::RunRefused,
        Kind::InputLength,
        Kind::RunBytes,
        Kind::Arguments,
    ];

    /// Each occurs early. A run takes as long as many policies, so there are few of them.
    const ORDER: &'static [Kind] = &[
        Kind::Any,
        Kind::Single,
        Kind::RunTable,
        Kind::OtherUrl,
        Kind::Listed,
        Kind::BadPolicy,
        Kind::OtherConnection,
        Kind::InputLength,
        Kind::Full,
        Kind::OtherRest,
        Kind::RunRefused,
        Kind::OtherUrl,
        Kind::Hollow,
        Kind::Lengths,
        Kind::RunBytes,
        Kind::OtherConnection,
        Kind::BadPolicy,
        Kind::Single,
        Kind::Arguments,
        Kind::Words,
    ];

    type Input = Input;

    fn name(self) -> &'static str {
        match self {
            Kind::Any => "any policies",
            Kind::Full => "nearly full",
            Kind::Listed => "partners",
            Kind::Hollow => "nearly empty",
            Kind::Single => "one connection, one URL",
            Kind::BadPolicy => "damaged policy",
            Kind::Lengths => "many lengths",
            Kind::Words => "random words",
            Kind::OtherUrl => "pair: a URL",
            Kind::OtherConnection => "pair: a connection",
            Kind::OtherRest => "pair: the rest",
            Kind::RunTable => "run: a table",
            Kind::RunRefused => "run: refused",
            Kind::InputLength => "run: length of the input",
            Kind::RunBytes => "run: random bytes",
            Kind::Arguments => "run: arguments",
        }
    }

    fn inputs(self, random: &Random) -> Vec<Input> {
        match self {
            Kind::Any => policies(SOME, || reach::policy_of(Sort::Any, random)),
            Kind::Full => policies(SOME, || reach::policy_of(Sort::Full, random)),
            Kind::Listed => policies(SOME, || reach::policy_of(Sort::Listed, random)),
            Kind::Hollow => policies(SOME, || reach::policy_of(Sort::Hollow, random)),
            Kind::Single => policies(SOME, || reach::policy_of(Sort::Single, random)),
            Kind::BadPolicy => policies(MANY, || reach::bad(random)),
            Kind::Lengths => lengths(random),
            Kind::Words => policies(SOME, || words(random)),
            Kind::OtherUrl => pairs(Change::Url, random),
            Kind::OtherConnection => pairs(Change::Connection, random),
            Kind::OtherRest => pairs(Change::Rest, random),
            Kind::RunTable => runs(run::of_table, random),
            Kind::RunRefused => runs(run::of_bad_policy, random),
            Kind::InputLength => runs(run::of_length, random),
            Kind::RunBytes => runs(run::of_bytes, random),
            Kind::Arguments => runs(run::of_arguments, random),
        }
    }
}

/// How many runs, how many policies or pairs, and how many policies that are refused, which takes no time, a case has.
const FEW: usize = 4;
const SOME: usize = 16;
const MANY: usize = 64;

fn policies(count: usize, make: impl Fn() -> Vec<u32>) -> Vec<Input> {
    (0..count).map(|_| Input::Policy(make())).collect()
}

fn pairs(change: Change, random: &Random) -> Vec<Input> {
    let pair = |_| Input::Pair(Pair::of(change, random));
    (0..SOME).map(pair).collect()
}

fn runs(make: fn(&Random) -> Run, random: &Random) -> Vec<Input> {
    (0..FEW).map(|_| Input::Run(make(random))).collect()
}

/// A policy that lacks words, or has its words again behind its end: at each border between its parts, one off, and any.
fn lengths(random: &Random) -> Vec<Input> {
    let policy = reach::good(random);
    let of_words = |words: usize| {
        let words = policy.iter().copied().cycle().take(words);
        Input::Policy(words.collect())
    };
    let borders = [0, 1, CONNECTIONS_AT, HTTPS_HOSTS_AT, PARTNERS_AT];
    let near = [POLICY_WORDS - 1, POLICY_WORDS, POLICY_WORDS + 1];
    let any = [2 * POLICY_WORDS, random.below(3 * POLICY_WORDS)];
    let all = borders.into_iter().chain(near).chain(any);
    all.map(of_words).collect()
}

fn words(random: &Random) -> Vec<u32> {
    let mut words = vec![random.pick(&[0, 255, u32::MAX, random.word()]); POLICY_WORDS];
    if random.one_in(2) {
        random.fill_words(&mut words);
    }
    words
}
