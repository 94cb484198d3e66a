//! Runs of the program import: its arguments and its standard input.

use cases::line;
use cases::names::{self, letters, name_in, other_case};
use cases::Random;
use programs::run::Run;
use reference::{IMPORT_BYTES as LONGEST, NAME_BYTES};

/// Hosts that are no numbers.
const BAD_HOSTS: [&[u8]; 12] = [
    b"",
    b" ",
    b"x",
    b"-1",
    b"+1",
    b" 1",
    b"1 ",
    b"0x1",
    b"1\n",
    b"\xff",
    b"4294967296",
    b"00000000001",
];

/// What stands before a line that has no header, or not quite.
const NEAR_HEADERS: [&[u8]; 14] = [
    b"",
    b":",
    b"Set-Cookie",
    b"Set-Cookie ",
    b"Set-Cookie :",
    b" Set-Cookie:",
    b"\tset-cookie:",
    b"Set-Cookie\r:",
    b"Set-Cookie2:",
    b"Cookie:",
    b"Set Cookie:",
    b"Set_Cookie:",
    b"SetCookie:",
    b"xSet-Cookie:",
];

/// Names as an argument may have them, but rarely does.
const ODD_NAMES: [&[u8]; 6] = [b"", b"-", b"--help", b" ", b"a=b;c", b"0123456789abcdef"];

/// Lines that are short or empty, and how a line may end.
const SHORT_LINES: [&[u8]; 10] = [
    b"",
    b"",
    b"",
    b"",
    b"\r",
    b"sid=7",
    b"sid=7; Secure",
    b"Set-Cookie: sid=7;HttpOnly",
    b"Set-Cookie:",
    b":",
];
const LINE_ENDS: [&[u8]; 7] = [b"\n", b"\n", b"\n", b"\n", b"\r\n", b"\r\n", b"\r\r\n"];

/// What the program should print; nothing where it should complain.
pub fn printed(run: &Run) -> Option<String> {
    let (host, names) = run.arguments.split_first()?;
    let names: Vec<&[u8]> = names.iter().map(Vec::as_slice).collect();
    let (host, names) = (reference::host_of(host)?, reference::names_of(&names)?);
    let fits = run.input.len() <= LONGEST;
    fits.then(|| reference::import_text(host, &names, &run.input))
}

/// Good arguments, and lines of every sort.
pub fn of_lines(random: &Random) -> Run {
    let names = names::table(random);
    Run {
        arguments: arguments(&names, random),
        input: lines(random.within(1..=100), &names, random),
    }
}

/// Hosts and names as the arguments may have them, but rarely do.
pub fn of_odd_arguments(random: &Random) -> Run {
    let names = names::table(random);
    let mut arguments = arguments(&names, random);
    let host = line::any_host(random);
    let width = random.within(1..=10);
    arguments[0] = format!("{host:0width$}").into();
    arguments.truncate(random.within(2..=arguments.len()));
    let name = 1 + random.below(arguments.len() - 1);
    arguments[name] = random.pick(&ODD_NAMES).to_vec();
    Run {
        arguments,
        input: lines(random.within(1..=8), &names, random),
    }
}

/// Arguments that are none: too few, too many, a host that is no number, a name that is too long. Now and then the host is one after all.
pub fn of_bad_arguments(random: &Random) -> Run {
    let mut run = of_lines(random);
    let last = run.arguments.len() - 1;
    match random.below(6) {
        0 => run.arguments.truncate(random.below(2)),
        1 => run
            .arguments
            .resize(random.within(10..=20), b"sid".to_vec()),
        2 => run.arguments[last] = letters(random.pick(&[17, 18, 32, 300]), random),
        3 => run.arguments[0] = without_zeros(line::no_number(random)),
        _ => run.arguments[0] = random.pick(&BAD_HOSTS).to_vec(),
    }
    run
}

/// Few lines, or none, many of them empty.
pub fn of_line_ends(random: &Random) -> Run {
    let line = |_| random.pick(&SHORT_LINES).to_vec();
    Run {
        arguments: vec![b"1".to_vec(), b"sid".to_vec()],
        input: ended((0..random.below(6)).map(line), random),
    }
}

/// Bytes of all values or of few.
pub fn of_bytes(random: &Random) -> Run {
    let mut run = of_lines(random);
    run.input = line::bytes(random.pick(&[8, 100, 5_000]), random);
    run
}

/// As many bytes as may be read, or one less.
pub fn longest(random: &Random) -> Run {
    of_length(LONGEST - random.below(2), random)
}

/// More bytes than may be read.
pub fn long(random: &Random) -> Run {
    let more = random.pick(&[1, 1, 2, 4_096, random.within(1..=2 * LONGEST)]);
    of_length(LONGEST + more, random)
}

/// One line over and over, or a single one. That each byte is a line is rare, since then much is printed.
fn of_length(bytes: usize, random: &Random) -> Run {
    let names = names::table(random);
    let mut line = line::any(&names, random);
    let piece: &[u8] = match random.below(16) {
        0 => b"\n",
        1..=4 => random.pick(&[b";".as_slice(), b" ", b"x", b"; Secure", b"="]),
        _ => {
            line.extend(b"; Path=/; Domain=a.example; Max-Age=3600; SameSite=Lax\n");
            &line
        }
    };
    Run {
        arguments: arguments(&names, random),
        input: line::long(&line::any(&names, random), piece, b"", bytes),
    }
}

/// A host and the names of some keys, from key 0 on.
fn arguments(names: &[u8], random: &Random) -> Vec<Vec<u8>> {
    let host = line::host(random).to_string().into_bytes();
    let keys = random.pick(&[8, 8, 8, random.within(1..=8)]);
    let named = names.chunks(NAME_BYTES).take(keys).map(name_in);
    [host]
        .into_iter()
        .chain(named.map(<[u8]>::to_vec))
        .collect()
}

/// So many lines of every sort, with and without a header.
fn lines(count: usize, names: &[u8], random: &Random) -> Vec<u8> {
    let line = |_| [header(random), line::any(names, random)].concat();
    ended((0..count).map(line), random)
}

/// Lines with their ends, which the last may lack.
fn ended(lines: impl Iterator<Item = Vec<u8>>, random: &Random) -> Vec<u8> {
    let mut input = Vec::new();
    for line in lines {
        input.extend(line);
        input.extend(random.pick(&LINE_ENDS));
    }
    if random.one_in(4) {
        input.pop();
    }
    input
}

/// In every second line none.
fn header(random: &Random) -> Vec<u8> {
    match random.below(8) {
        0..=3 => Vec::new(),
        4 => random.pick(&NEAR_HEADERS).to_vec(),
        5 => [other_case(b"Set-Cookie", random), b":".to_vec()].concat(),
        6 => b"Set-Cookie:Set-Cookie:".to_vec(),
        _ => b"Set-Cookie: ".to_vec(),
    }
}

/// No argument can have a zero byte.
fn without_zeros(mut argument: Vec<u8>) -> Vec<u8> {
    argument.retain(|&byte| byte != 0);
    argument
}
