//! The kinds of inputs, and how they are made.

use cases::damage::refuse_policy;
use cases::labels::{rows, Url, NO_PARTNER, PARTNERS_AT, POLICY_WORDS};
use cases::list::{self, List, MakeUp};
use cases::policy::{list_hosts, policy_of, random_policy, Style};
use cases::record::{make_accepted, make_record};
use cases::{journey, Random, Session, Setting};

use crate::given::{Given, Walk};
use crate::{advice, hostile, import};

#[derive(Clone, Copy, PartialEq, Eq)]
pub enum Kind {
    /// A policy, damaged or not.
    Words,
    /// A policy, a script table and records, to a text and back.
    RoundTrip,
    /// Records that go far.
    Session,
    /// A text whose scripts have pages.
    Advice,
    Reach,
    Journey,
    Tally,
    Import,
    /// Any bytes as a file.
    Bytes,
    /// Words of the language in any order.
    Tokens,
    /// The examples, and texts of random policies, changed.
    Changed,
}

impl programs::Kind for Kind {
    const ALL: &'static [Kind] = &[
        Kind::Words,
        Kind::RoundTrip,
        Kind::Session,
        Kind::Advice,
        Kind::Reach,
        Kind::Journey,
        Kind::Tally,
        Kind::Import,
        Kind::Bytes,
        Kind::Tokens,
        Kind::Changed,
    ];
    const ORDER: &'static [Kind] = &[
        Kind::Words,
        Kind::RoundTrip,
        Kind::Changed,
        Kind::Session,
        Kind::Tokens,
        Kind::Advice,
        Kind::Changed,
        Kind::Reach,
        Kind::Bytes,
        Kind::Journey,
        Kind::Changed,
        Kind::Tally,
        Kind::Tokens,
        Kind::Import,
        Kind::Changed,
    ];

    type Input = Given;

    fn name(self) -> &'static str {
        match self {
            Kind::Words => "words of a policy",
            Kind::RoundTrip => "to a text and back",
            Kind::Session => "a session",
            Kind::Advice => "advice",
            Kind::Reach => "a reach table",
            Kind::Journey => "a journey",
            Kind::Tally => "a tally",
            Kind::Import => "Set-Cookie lines",
            Kind::Bytes => "bytes as a file",
            Kind::Tokens => "words in any order",
            Kind::Changed => "texts, changed",
        }
    }

    fn inputs(self, random: &Random) -> Vec<Given> {
        let many = match self {
            Kind::Words => 8,
            Kind::Tally | Kind::Journey | Kind::Import | Kind::Reach => 3,
            _ => 1,
        };
        (0..many).map(|_| self.input(random)).collect()
    }
}

impl Kind {
    fn input(self, random: &Random) -> Given {
        match self {
            Kind::Words => Given::Words(words(random)),
            Kind::RoundTrip => Given::RoundTrip(walk(random, make_record)),
            Kind::Session => {
                let make = random.pick(&[make_record, make_accepted, make_accepted]);
                Given::Session(walk(random, make))
            }
            Kind::Advice => Given::Advice(advice::text(random)),
            Kind::Reach if random.one_in(12) => {
                Given::Reach(Walk::over(policy_of(Style::Bare, random)))
            }
            Kind::Reach => Given::Reach(Walk::over(random_policy(random))),
            Kind::Journey => travelled(random),
            Kind::Tally => Given::Tally {
                walk: Walk::over(random_policy(random)),
                list: requests(random),
            },
            Kind::Import => import::given(random),
            Kind::Bytes => Given::Hostile(hostile::make::bytes(random)),
            Kind::Tokens => Given::Hostile(hostile::make::tokens(random)),
            Kind::Changed => Given::Hostile(hostile::change::text(random)),
        }
    }
}

/// One in four has nothing wrong but with partners, which are damaged seldom else.
fn words(random: &Random) -> Vec<u32> {
    let mut policy = random_policy(random);
    if random.one_in(4) {
        list_hosts(&mut policy, random);
        let rows = rows(&policy, Url::is_http);
        let row = random.bit_of(rows).unwrap_or(0);
        policy[PARTNERS_AT + usize::from(row)] = random.pick(&[NO_PARTNER, row.into()]);
        return policy;
    }
    for _ in 0..random.pick(&[0, 1, 1, 2, 5]) {
        if policy.len() == POLICY_WORDS {
            refuse_policy(&mut policy, random);
        }
    }
    policy
}

/// Records for the states that those before them left.
fn walk(random: &Random, make: cases::session::MakeRecord) -> Walk {
    let mut session = Session::start(Setting::random(random));
    let mut records = Vec::new();
    for _ in 0..random.pick(&[0, 1, 8, 40]) {
        let record = session.record(make, random);
        if record.len() <= usize::from(u8::MAX) {
            session.feed(&record);
            records.push(record);
        }
    }
    let Setting {
        policy, scripts, ..
    } = session.setting;
    Walk {
        policy,
        scripts,
        records,
    }
}

fn travelled(random: &Random) -> Given {
    let given = journey::Given::good(random);
    Given::Journey {
        walk: Walk::over(given.policy),
        urls: given.urls,
    }
}

/// A list of requests, now and then one that is none.
fn requests(random: &Random) -> Vec<u8> {
    let make_up = MakeUp::random(random);
    let mut list = List::of(random.pick(&[0, 3, 40, 400]), &make_up, random).bytes;
    match random.below(6) {
        0 if !list.is_empty() => list.truncate(random.below(list.len())),
        1 if !list.is_empty() => {
            let place = random.below(list.len());
            list[place] = random.byte();
        }
        2 => list.push(random.byte()),
        3 => list = list::sent(2_000, random),
        _ => {}
    }
    list
}
