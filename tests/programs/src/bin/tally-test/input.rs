//! Random lists for the tally, by kind.

use cases::list::{flawed, sent, Flaw, List, MakeUp, DOCUMENT_REQUEST, MAPS};
use cases::Random;
use reference::LIST_BYTES as LONGEST;

#[derive(Clone, Copy, Debug, PartialEq, Eq)]
pub enum Kind {
    /// Requests of any make-up.
    Requests,
    /// What sessions sent.
    Sessions,
    /// No bytes.
    Empty,
    /// As long as a list may be, and a little less.
    Longest,
    /// Longer than a list may be.
    Long,
    /// Every beginning of a list, of which some end with a request.
    Cut,
    /// The last request lacks its last byte.
    LastShort,
    /// A request with a key map of 0 in each place of a list.
    NoKeys,
    /// An input of the monitor that is no request.
    InputMap,
    /// A record whose map nothing has.
    UnknownMap,
    /// A request with a URL, connection or handler that is out of range.
    OutOfRange,
    /// One byte changed, in each place of a list.
    Changed,
    Dropped,
    Inserted,
    /// Random bytes, of all or of few values.
    Bytes,
    /// Every byte is ff.
    Ones,
    /// Every byte is 0.
    Zeros,
}

impl programs::Kind for Kind {
    const ALL: &'static [Kind] = &[
        Kind::Requests,
        Kind::Sessions,
        Kind::Empty,
        Kind::Longest,
        Kind::Long,
        Kind::Cut,
        Kind::LastShort,
        Kind::NoKeys,
        Kind::InputMap,
        Kind::UnknownMap,
        Kind::OutOfRange,
        Kind::Changed,
        Kind::Dropped,
        Kind::Inserted,
        Kind::Bytes,
        Kind::Ones,
        Kind::Zeros,
    ];

    /// Each occurs early, and those that are counted most often.
    const ORDER: &'static [Kind] = &[
        Kind::Requests,
        Kind::Cut,
        Kind::Sessions,
        Kind::Changed,
        Kind::Requests,
        Kind::NoKeys,
        Kind::Longest,
        Kind::OutOfRange,
        Kind::Requests,
        Kind::Empty,
        Kind::Sessions,
        Kind::Dropped,
        Kind::Requests,
        Kind::LastShort,
        Kind::Long,
        Kind::InputMap,
        Kind::Requests,
        Kind::Bytes,
        Kind::Inserted,
        Kind::UnknownMap,
        Kind::Requests,
        Kind::Ones,
        Kind::Sessions,
        Kind::Zeros,
    ];

    type Input = Vec<u8>;

    fn name(self) -> &'static str {
        match self {
            Kind::Requests => "requests",
            Kind::Sessions => "what sessions sent",
            Kind::Empty => "empty",
            Kind::Longest => "longest",
            Kind::Long => "long",
            Kind::Cut => "cut at each byte",
            Kind::LastShort => "last request short",
            Kind::NoKeys => "key map of 0",
            Kind::InputMap => "input map",
            Kind::UnknownMap => "unknown map",
            Kind::OutOfRange => "field out of range",
            Kind::Changed => "a byte changed",
            Kind::Dropped => "a byte dropped",
            Kind::Inserted => "a byte inserted",
            Kind::Bytes => "random bytes",
            Kind::Ones => "all ff",
            Kind::Zeros => "all 00",
        }
    }

    fn inputs(self, random: &Random) -> Vec<Vec<u8>> {
        match self {
            Kind::Requests => vec![any(random).bytes],
            Kind::Sessions => vec![sent(random.pick(&[200, 4_000, LONGEST]), random)],
            Kind::Empty => vec![Vec::new()],
            Kind::Longest => longest(random),
            Kind::Long => long(random),
            Kind::Cut => cut(random),
            Kind::LastShort => vec![last_short(random)],
            Kind::NoKeys => with_flaw(Flaw::NoKeys, random),
            Kind::InputMap => with_flaw(Flaw::InputMap, random),
            Kind::UnknownMap => with_flaw(Flaw::UnknownMap, random),
            Kind::OutOfRange => out_of_range(random),
            Kind::Changed => changed(random),
            Kind::Dropped => dropped(random),
            Kind::Inserted => inserted(random),
            Kind::Bytes => vec![random_bytes(random)],
            Kind::Ones => vec![vec![0xff; any_length(random)]],
            Kind::Zeros => vec![vec![0; any_length(random)]],
        }
    }
}

fn short(random: &Random) -> List {
    List::of(random.within(1..=8), &MakeUp::random(random), random)
}

/// Mostly short; at least one request.
fn any(random: &Random) -> List {
    let make_up = MakeUp::random(random);
    let length = random.pick(&[100, 1_000, 10_000, LONGEST]);
    match random.below(4) {
        0 => List::within(random.within(length / 2..=length), &make_up, random),
        _ => List::of(random.within(1..=100), &make_up, random),
    }
}

fn longest(random: &Random) -> Vec<Vec<u8>> {
    let lengths = [LONGEST, LONGEST - random.within(1..=40)];
    let list = |length| List::exactly(length, &MakeUp::random(random), random).bytes;
    lengths.map(list).to_vec()
}

/// Requests throughout; a list as long as may be and more behind it; and requests and then one byte over and over.
fn long(random: &Random) -> Vec<Vec<u8>> {
    let make_up = MakeUp::random(random);
    let throughout = List::exactly(LONGEST + 1, &make_up, random).bytes;
    let full = List::exactly(LONGEST, &make_up, random).bytes;
    let more = any(random).bytes;
    let one_more = [
        &full[..],
        &[random.pick(&[0, DOCUMENT_REQUEST, random.byte()])],
    ]
    .concat();
    let mut filled = any(random).bytes;
    filled.resize(LONGEST + 1 + random.below(3 * LONGEST), random.byte());
    vec![throughout, one_more, [full, more].concat(), filled]
}

fn cut(random: &Random) -> Vec<Vec<u8>> {
    let whole = short(random).bytes;
    (0..=whole.len()).map(|end| whole[..end].to_vec()).collect()
}

fn last_short(random: &Random) -> Vec<u8> {
    let mut list = any(random).bytes;
    list.pop();
    list
}

fn out_of_range(random: &Random) -> Vec<Vec<u8>> {
    let flaws = [Flaw::Url, Flaw::Connection, Flaw::Handler];
    flaws.map(|flaw| with_flaw(flaw, random)).concat()
}

/// A record with a flaw before each request of a short list and behind the last, or somewhere in a long one.
fn with_flaw(flaw: Flaw, random: &Random) -> Vec<Vec<u8>> {
    let List { bytes, mut starts } = some_list(random);
    starts.push(bytes.len());
    let flawed_at = |at: usize| {
        let (before, after) = bytes.split_at(at);
        [before, &flawed(flaw, random), after].concat()
    };
    places(&starts, random).into_iter().map(flawed_at).collect()
}

fn changed(random: &Random) -> Vec<Vec<u8>> {
    at_each_byte(random, |list, at| {
        let other = random.pick(&[1, 1 << random.below(8), 1 + random.byte_below(0xff)]);
        list[at] ^= other;
    })
}

fn dropped(random: &Random) -> Vec<Vec<u8>> {
    at_each_byte(random, |list, at| {
        list.remove(at);
    })
}

fn inserted(random: &Random) -> Vec<Vec<u8>> {
    at_each_byte(random, |list, at| {
        let byte = random.pick(&[0, random.pick(&MAPS), random.byte()]);
        list.insert(at, byte);
    })
}

/// Something done to a list at each of its bytes, or at some of a long one.
fn at_each_byte(random: &Random, change: impl Fn(&mut Vec<u8>, usize)) -> Vec<Vec<u8>> {
    let bytes = some_list(random).bytes;
    let all: Vec<usize> = (0..bytes.len()).collect();
    let changed_at = |at: usize| {
        let mut list = bytes.clone();
        change(&mut list, at);
        list
    };
    places(&all, random).into_iter().map(changed_at).collect()
}

/// A list to be changed in many places: short, but for few.
fn some_list(random: &Random) -> List {
    match random.one_in(8) {
        true => any(random),
        false => short(random),
    }
}

/// All places where they are few, and else some of them.
fn places(all: &[usize], random: &Random) -> Vec<usize> {
    match all.len() {
        ..=400 => all.to_vec(),
        _ => (0..16).map(|_| random.pick(all)).collect(),
    }
}

/// Maps, and numbers that are in range or just out of it.
const LIKELY: [u8; 10] = [0, 1, 3, 3, 7, 0x0b, 0x0f, 16, 0x43, 0x47];

/// Of all values, or of few, which make requests now and then.
fn random_bytes(random: &Random) -> Vec<u8> {
    let mut bytes = vec![0; any_length(random)];
    match random.below(3) {
        0 => random.fill_bytes(&mut bytes),
        1 => bytes.fill_with(|| random.pick(&MAPS)),
        _ => bytes.fill_with(|| random.pick(&LIKELY)),
    }
    bytes
}

fn any_length(random: &Random) -> usize {
    let few = random.within(1..=12);
    random.pick(&[few, few, random.below(400), LONGEST, LONGEST + 1])
}
