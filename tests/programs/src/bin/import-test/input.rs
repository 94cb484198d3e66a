//! Random lines for the importer, by kind, and random runs of its program.

use cases::line::{self, Given, Line};
use cases::{names, Random};
use programs::input::Parts;
use programs::run::Run;
use reference::{NAMES_BYTES, NAME_BYTES};

use crate::run;

pub enum Input {
    /// For the library.
    Line(Given),
    /// For the program.
    Run(Run),
}

impl programs::Input for Input {
    fn parts(&self) -> Parts<'_> {
        match self {
            Input::Line(Given { host, names, text }) => vec![
                ("host", host.to_string().into_bytes().into()),
                ("names", names.into()),
                ("line", text.into()),
            ],
            Input::Run(run) => run.parts(),
        }
    }
}

#[derive(Clone, Copy, Debug, PartialEq, Eq)]
pub enum Kind {
    /// Lines that are accepted.
    Good,
    /// Accepted too, with attributes that are nearly Secure or HttpOnly.
    Attributes,
    /// Pairs without a name.
    NoName,
    /// Names that are nearly those of keys.
    UnknownName,
    /// Values that are no numbers.
    NoNumber,
    /// Any host, above 15 too.
    Hosts,
    /// Names that have another length than they should.
    NamesLength,
    /// Every beginning of a line.
    Cut,
    /// One byte changed, in each place of a line.
    Changed,
    Dropped,
    Inserted,
    /// What lines are made of, in any order.
    Pieces,
    /// Random bytes, of all or of few values.
    Bytes,
    /// Lines of 65,536 bytes, and some that are shorter by a little.
    Long,
    /// Runs of the program with lines of every sort.
    Lines,
    /// Runs with arguments that are rare.
    OddArguments,
    /// Runs with arguments that are none.
    BadArguments,
    /// Runs on few lines, many of them empty.
    LineEnds,
    /// Runs on random bytes.
    RunBytes,
    /// Runs on as much as may be read.
    LongestInput,
    /// Runs on more than that.
    LongInput,
}

impl programs::Kind for Kind {
    const ALL: &'static [Kind] = &[
        Kind::Good,
        Kind::Attributes,
        Kind::NoName,
        Kind::UnknownName,
        Kind::NoNumber,
        Kind::Hosts,
        Kind::NamesLength,
        Kind::Cut,
        Kind::Changed,
        Kind::Dropped,
        Kind::Inserted,
        Kind::Pieces,
        Kind::Bytes,
        Kind::Long,
        Kind::Lines,
        Kind::OddArguments,
        Kind::BadArguments,
        Kind::LineEnds,
        Kind::RunBytes,
        Kind::LongestInput,
        Kind::LongInput,
    ];

    /// Each occurs early. A run takes as long as many lines, so there are few of them, and of long inputs fewest.
    const ORDER: &'static [Kind] = &[
        Kind::Good,
        Kind::Cut,
        Kind::Lines,
        Kind::Attributes,
        Kind::UnknownName,
        Kind::Changed,
        Kind::NoNumber,
        Kind::BadArguments,
        Kind::Good,
        Kind::Hosts,
        Kind::Inserted,
        Kind::OddArguments,
        Kind::Attributes,
        Kind::NoName,
        Kind::Pieces,
        Kind::LineEnds,
        Kind::UnknownName,
        Kind::NamesLength,
        Kind::Dropped,
        Kind::Lines,
        Kind::Good,
        Kind::Bytes,
        Kind::Long,
        Kind::RunBytes,
        Kind::Pieces,
        Kind::Attributes,
        Kind::Changed,
        Kind::LongestInput,
        Kind::Inserted,
        Kind::NoNumber,
        Kind::UnknownName,
        Kind::LongInput,
    ];

    type Input = Input;

    fn name(self) -> &'static str {
        match self {
            Kind::Good => "accepted",
            Kind::Attributes => "nearly Secure, HttpOnly",
            Kind::NoName => "no name",
            Kind::UnknownName => "unknown name",
            Kind::NoNumber => "no number",
            Kind::Hosts => "any host",
            Kind::NamesLength => "length of the names",
            Kind::Cut => "cut at each byte",
            Kind::Changed => "a byte changed",
            Kind::Dropped => "a byte dropped",
            Kind::Inserted => "a byte inserted",
            Kind::Pieces => "pieces of lines",
            Kind::Bytes => "random bytes",
            Kind::Long => "long lines",
            Kind::Lines => "run: lines",
            Kind::OddArguments => "run: odd arguments",
            Kind::BadArguments => "run: bad arguments",
            Kind::LineEnds => "run: ends of lines",
            Kind::RunBytes => "run: random bytes",
            Kind::LongestInput => "run: longest input",
            Kind::LongInput => "run: long input",
        }
    }

    fn inputs(self, random: &Random) -> Vec<Input> {
        let lines = self.lines(random).into_iter().map(Input::Line);
        let runs = self.runs(random).into_iter().map(Input::Run);
        lines.chain(runs).collect()
    }
}

impl Kind {
    /// None but where it is a kind of runs.
    fn runs(self, random: &Random) -> Vec<Run> {
        let few = |make: fn(&Random) -> Run| (0..FEW).map(|_| make(random)).collect();
        match self {
            Kind::Lines => vec![run::of_lines(random)],
            Kind::OddArguments => few(run::of_odd_arguments),
            Kind::BadArguments => few(run::of_bad_arguments),
            Kind::LineEnds => few(run::of_line_ends),
            Kind::RunBytes => vec![run::of_bytes(random)],
            Kind::LongestInput => vec![run::longest(random)],
            Kind::LongInput => vec![run::long(random)],
            _ => Vec::new(),
        }
    }

    /// None but where it is a kind of lines.
    fn lines(self, random: &Random) -> Vec<Given> {
        match self {
            Kind::Good => some(random, |names| Line::good(names, random).text()),
            Kind::Attributes => some(random, |names| Line::with_attributes(names, random).text()),
            Kind::NoName => some(random, |names| line::without_name(names, random)),
            Kind::UnknownName => some(random, |names| {
                Line::with_unknown_name(names, random).text()
            }),
            Kind::NoNumber => some(random, |names| Line::without_number(names, random).text()),
            Kind::Hosts => hosts(random),
            Kind::NamesLength => names_length(random),
            Kind::Cut => cut(random),
            Kind::Changed => at_each_byte(random, |text, at| text[at] = changed(text[at], random)),
            Kind::Dropped => at_each_byte(random, |text, at| {
                text.remove(at);
            }),
            Kind::Inserted => at_each_byte(random, |text, at| {
                text.insert(at, line::telling_byte(random))
            }),
            Kind::Pieces => some(random, |names| line::pieces(names, random)),
            Kind::Bytes => some(random, |_| line::bytes(random.below(40), random)),
            Kind::Long => long(random),
            _ => Vec::new(),
        }
    }
}

/// How many runs a case has where they are short.
const FEW: usize = 6;
/// How many lines a case has that are made one by one.
const SOME: usize = 128;

fn some(random: &Random, make: impl Fn(&[u8]) -> Vec<u8>) -> Vec<Given> {
    let names = names::table(random);
    let given = |_| Given {
        host: line::host(random),
        names: names.clone(),
        text: make(&names),
    };
    (0..SOME).map(given).collect()
}

fn hosts(random: &Random) -> Vec<Given> {
    let mut lines = some(random, |names| line::any(names, random));
    lines
        .iter_mut()
        .for_each(|given| given.host = line::any_host(random));
    lines
}

/// One byte too few or too many, none at all, whole names too few or too many, or anything.
fn names_length(random: &Random) -> Vec<Given> {
    let mut lines = some(random, |names| line::any(names, random));
    for given in &mut lines {
        let [less, more] = [NAMES_BYTES - NAME_BYTES, NAMES_BYTES + NAME_BYTES];
        let [short, long] = [NAMES_BYTES - 1, NAMES_BYTES + 1];
        let any = random.below(4 * NAMES_BYTES);
        let length = random.pick(&[0, 1, less, short, long, more, any]);
        given.names = given.names.iter().copied().cycle().take(length).collect();
    }
    lines
}

/// A line to be changed in many places.
fn whole(random: &Random) -> Given {
    let names = names::table(random);
    let text = match random.one_in(4) {
        true => line::any(&names, random),
        false => Line::good(&names, random).text(),
    };
    Given {
        host: line::host(random),
        names,
        text,
    }
}

fn with_text(given: &Given, text: Vec<u8>) -> Given {
    Given {
        text,
        ..given.clone()
    }
}

fn cut(random: &Random) -> Vec<Given> {
    let whole = whole(random);
    let ends = 0..=whole.text.len();
    ends.map(|end| with_text(&whole, whole.text[..end].to_vec()))
        .collect()
}

/// Another byte: one that changes what a line says, the other case of a letter, or a bit changed.
fn changed(byte: u8, random: &Random) -> u8 {
    let bit = 1 << random.below(8);
    random.pick(&[line::telling_byte(random), byte ^ 0x20, byte ^ bit])
}

/// Something done to a line at each of its bytes.
fn at_each_byte(random: &Random, change: impl Fn(&mut Vec<u8>, usize)) -> Vec<Given> {
    let whole = whole(random);
    let changed_at = |at: usize| {
        let mut text = whole.text.clone();
        change(&mut text, at);
        with_text(&whole, text)
    };
    (0..whole.text.len()).map(changed_at).collect()
}

/// What long lines are filled with.
const FILLINGS: [&[u8]; 14] = [
    b";",
    b" ",
    b"\t",
    b"=",
    b"x",
    b"0",
    b"; ",
    b";=",
    b";x",
    b" ;",
    b"; Secure",
    b";HttpOnly=;",
    b";secured",
    b"\0",
];

/// Filled in any part, with an end that tells.
fn long(random: &Random) -> Vec<Given> {
    let names = names::table(random);
    let pair = [&names::known(&names, random)[..], b"=7"].concat();
    let filled = |_| {
        let bytes = (64 << 10) - random.pick(&[0, 0, random.below(40)]);
        let front = match random.below(4) {
            0 => &pair[..random.below(pair.len())],
            _ => &pair,
        };
        let back = random.pick(&[
            b"".as_slice(),
            b";Secure",
            b" ; HttpOnly ",
            b"=7;Secure",
            b"\r",
        ]);
        Given {
            host: line::host(random),
            names: names.clone(),
            text: line::long(front, random.pick(&FILLINGS), back, bytes),
        }
    };
    (0..4).map(filled).collect()
}
