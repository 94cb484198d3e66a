//! Random inputs for walk, by kind.

use cases::damage::damage_policy;
use cases::record::{make_accepted, make_record, INPUT_MAPS};
use cases::{Random, Session, Setting};
use reference::layout::{
    POLICY_WORDS, RECORD_BYTES, WALK_LONGEST as LONGEST, WALK_SHORTEST as RECORDS_AT,
};

#[derive(Clone, Copy, Debug, PartialEq, Eq)]
pub enum Kind {
    /// Records for the state that the ones before them left, some of them refused.
    Run,
    /// The same, nearly all accepted.
    Accepted,
    /// A record of each length from 0 to 255.
    Lengths,
    /// A run whose last record is shorter than its length byte says, cut at each place.
    Cut,
    /// No room for policy and script table.
    Short,
    /// Policy and script table alone.
    NoRecords,
    /// As long as an input may be, or one byte less.
    Longest,
    /// Longer than an input may be.
    Long,
    /// A run under a policy that is damaged.
    BadPolicy,
    /// Records of length 0.
    EmptyRecords,
    /// Random bytes.
    Bytes,
    /// Every byte is ff.
    Ones,
    /// Every byte is 0.
    Zeros,
}

impl programs::Kind for Kind {
    const ALL: &'static [Kind] = &[
        Kind::Run,
        Kind::Accepted,
        Kind::Lengths,
        Kind::Cut,
        Kind::Short,
        Kind::NoRecords,
        Kind::Longest,
        Kind::Long,
        Kind::BadPolicy,
        Kind::EmptyRecords,
        Kind::Bytes,
        Kind::Ones,
        Kind::Zeros,
    ];

    /// Each occurs early, and the plain runs most often.
    const ORDER: &'static [Kind] = &[
        Kind::Run,
        Kind::Cut,
        Kind::Run,
        Kind::Short,
        Kind::Run,
        Kind::Lengths,
        Kind::Accepted,
        Kind::NoRecords,
        Kind::Run,
        Kind::Longest,
        Kind::Run,
        Kind::Long,
        Kind::Accepted,
        Kind::BadPolicy,
        Kind::Run,
        Kind::EmptyRecords,
        Kind::Run,
        Kind::Bytes,
        Kind::Accepted,
        Kind::Ones,
        Kind::Run,
        Kind::Zeros,
        Kind::Run,
        Kind::Short,
    ];

    type Input = Vec<u8>;

    fn name(self) -> &'static str {
        match self {
            Kind::Run => "run",
            Kind::Accepted => "run, nearly all accepted",
            Kind::Lengths => "each length of a record",
            Kind::Cut => "cut",
            Kind::Short => "short",
            Kind::NoRecords => "no records",
            Kind::Longest => "longest",
            Kind::Long => "long",
            Kind::BadPolicy => "damaged policy",
            Kind::EmptyRecords => "empty records",
            Kind::Bytes => "random bytes",
            Kind::Ones => "all ff",
            Kind::Zeros => "all 00",
        }
    }

    /// The inputs of a case: one, but for `Cut`.
    fn inputs(self, random: &Random) -> Vec<Vec<u8>> {
        let length = any_length(random);
        match self {
            Kind::Run => vec![run(random)],
            Kind::Accepted => vec![accepted(random)],
            Kind::Lengths => vec![lengths(random)],
            Kind::Cut => cut(random),
            Kind::Short => vec![short(random)],
            Kind::NoRecords => vec![Builder::random(random).bytes],
            Kind::Longest => vec![longest(random)],
            Kind::Long => vec![long(random)],
            Kind::BadPolicy => vec![bad_policy(random)],
            Kind::EmptyRecords => vec![filled(Builder::random(random).bytes, length, 0)],
            Kind::Bytes => vec![random_bytes(length, random)],
            Kind::Ones => vec![vec![0xff; length]],
            Kind::Zeros => vec![vec![0; length]],
        }
    }
}

/// An input that grows record by record.
struct Builder {
    session: Session,
    bytes: Vec<u8>,
}

impl Builder {
    fn random(random: &Random) -> Builder {
        Builder::over(Setting::random(random))
    }

    fn over(setting: Setting) -> Builder {
        let mut bytes: Vec<u8> = setting
            .policy
            .iter()
            .flat_map(|w| w.to_be_bytes())
            .collect();
        bytes.extend_from_slice(&setting.scripts);
        Builder {
            session: Session::start(setting),
            bytes,
        }
    }

    /// Adds a record after its length byte; what no length byte can tell is left out.
    fn push(&mut self, record: &[u8]) {
        let record = &record[..record.len().min(255)];
        self.bytes.push(record.len() as u8);
        self.bytes.extend_from_slice(record);
        self.session.feed(record);
    }

    fn push_random(&mut self, random: &Random) {
        let record = self.session.record(make_record, random);
        self.push(&record);
    }

    fn push_accepted(&mut self, random: &Random) {
        let record = self.session.record(make_accepted, random);
        self.push(&record);
    }
}

fn run(random: &Random) -> Vec<u8> {
    let mut input = Builder::random(random);
    let most = random.pick(&[4, 64, 400]);
    for _ in 0..random.within(1..=most) {
        input.push_random(random);
    }
    input.bytes
}

fn accepted(random: &Random) -> Vec<u8> {
    let mut input = Builder::random(random);
    for _ in 0..random.within(1..=600) {
        input.push_accepted(random);
    }
    input.bytes
}

fn lengths(random: &Random) -> Vec<u8> {
    let mut input = Builder::random(random);
    for length in 0..=255 {
        let mut record = random_bytes(length, random);
        if let (Some(map), false) = (record.first_mut(), random.one_in(8)) {
            *map = random.pick(&INPUT_MAPS);
        }
        input.push(&record);
    }
    input.bytes
}

/// Each beginning of the last record that is not the whole of it.
fn cut(random: &Random) -> Vec<Vec<u8>> {
    let mut input = Builder::random(random);
    for _ in 0..random.below(8) {
        input.push_random(random);
    }
    let start = input.bytes.len();
    if random.one_in(2) {
        input.push_accepted(random);
    } else {
        let length = random.pick(&[1, 2, RECORD_BYTES, RECORD_BYTES + 1, 255]);
        input.push(&random_bytes(length, random));
    }
    let whole = input.bytes;
    (start + 1..whole.len())
        .map(|end| whole[..end].to_vec())
        .collect()
}

fn short(random: &Random) -> Vec<u8> {
    let lengths = [
        0,
        1,
        3,
        4 * POLICY_WORDS,
        RECORDS_AT - 1,
        random.below(RECORDS_AT),
    ];
    let mut input = Builder::random(random).bytes;
    input.truncate(random.pick(&lengths));
    input
}

/// Filled with records to the last byte, or past it: then the last one is cut.
fn longest(random: &Random) -> Vec<u8> {
    let length = LONGEST - random.below(2);
    let mut input = Builder::random(random);
    while input.bytes.len() + 256 < length {
        input.push_random(random);
    }
    let left = length - input.bytes.len();
    if left > 0 && random.one_in(2) {
        input.push(&random_bytes(left - 1, random));
    } else {
        input.push(&random_bytes(255, random));
    }
    input.bytes.truncate(length);
    input.bytes
}

fn long(random: &Random) -> Vec<u8> {
    let any = random.within(LONGEST + 1..=4 * LONGEST);
    let length = random.pick(&[LONGEST + 1, LONGEST + 1, LONGEST + 2, 70_000, any]);
    filled(run(random), length, random.byte())
}

fn bad_policy(random: &Random) -> Vec<u8> {
    let mut input = run(random);
    let mut policy: Vec<u32> = words(&input).collect();
    damage_policy(&mut policy, random);
    // A wrong length cannot be told on standard input: what is missing or too much moves the rest.
    let bytes = policy.iter().flat_map(|word| word.to_be_bytes());
    input.splice(..4 * POLICY_WORDS, bytes);
    input
}

fn words(input: &[u8]) -> impl Iterator<Item = u32> + '_ {
    let policy = input[..4 * POLICY_WORDS].chunks_exact(4);
    policy.map(|word| u32::from_be_bytes([word[0], word[1], word[2], word[3]]))
}

/// Full lengths are rare: where each byte is a record, one such input takes as long as a hundred others.
fn any_length(random: &Random) -> usize {
    random.weighted(&[
        (2, RECORDS_AT),
        (2, RECORDS_AT + 1),
        (12, RECORDS_AT + random.below(2_000)),
        (1, random.within(RECORDS_AT..=LONGEST)),
        (1, LONGEST),
    ])
}

fn filled(mut input: Vec<u8>, length: usize, byte: u8) -> Vec<u8> {
    input.resize(length, byte);
    input
}

fn random_bytes(length: usize, random: &Random) -> Vec<u8> {
    let mut bytes = vec![0; length];
    random.fill_bytes(&mut bytes);
    bytes
}
