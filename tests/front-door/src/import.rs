//! What Set-Cookie lines say, as `import` prints it.

use cases::{line, Random};
use zolherima::cookie::{self, Cookie, Refusal};
use zolherima::{Endpoints, KEYS};

use crate::context::{failed, same, sound, Context, Verdict};
use crate::given::Given;
use crate::read::set;

pub const EVENTS: &[&str] = &[
    "lines that are taken",
    "lines that are Secure",
    "lines that are refused",
    "clauses that are read back",
];

/// Names that cookies have.
const NAMES: &[&str] = &[
    "sid",
    "id",
    "a",
    "lang",
    "Theme",
    "_ga",
    "JSESSIONID",
    "Secure",
    "httponly",
    "a_name_of_16_abc",
];

/// A host whose number is told by its name, some cookies, and lines for them.
pub fn given(random: &Random) -> Given {
    let host = random.below(zolherima::HOSTS);
    let mut text = format!("host host{host} number {host}\n");
    let first = random.below(NAMES.len());
    let names: Vec<&str> = (0..random.within(1..=KEYS))
        .map(|key| NAMES[(first + key) % NAMES.len()])
        .collect();
    for name in &names {
        let readers = random.pick(&["everyone", "nobody", "https host", "host", "http host"]);
        let readers = readers.replace("host", &format!("host{host}"));
        text += &format!("cookie {name} of host{host}\nreaders {readers}\nwriters nobody\n");
    }
    let fields: Vec<&[u8]> = names.iter().map(|name| name.as_bytes()).collect();
    let keys = cookie::names(&fields).expect("the names are short");
    let lines = (0..random.below(12)).map(|_| {
        let header = random.pick(&["", "", "Set-Cookie:", "sEt-cOOkie: "]);
        let end = random.pick(&["\n", "\n", "\r\n", "\r\r\n"]);
        [header.as_bytes(), &line::any(&keys, random), end.as_bytes()].concat()
    });
    let mut lines = lines.collect::<Vec<_>>().concat();
    if random.one_in(3) {
        lines.pop();
    }
    Given::Import {
        text: text.into_bytes(),
        lines,
    }
}

pub fn check(text: &[u8], lines: &[u8], context: &mut Context) -> Verdict {
    let (_, sound) = sound(text.to_vec())?;
    let host = sound.plan.hosts.iter().position(Option::is_some);
    let host = host.ok_or("no host")? as u32;
    let printed = context.front.import(&sound, host, lines).map_err(failed)?;
    let cookies = sound.plan.cookies[host as usize].iter().flatten();
    let names: Vec<&str> = cookies.map(|cookie| cookie.name.as_str()).collect();
    let expected = imported(host, &names, lines)?;
    let blocks = blocks(&printed);
    same("lines that are told of", &expected.len(), &blocks.len())?;
    let all = expected.iter().zip(&blocks).enumerate();
    for (nth, (cookie, block)) in all {
        let told = compare(nth + 1, cookie, block, host, &names, context);
        told.map_err(|why| format!("line {}: {why}", nth + 1))?;
    }
    outside(host, &names, lines, &expected, context)
}

/// What the library says of each line.
type Said = Result<Cookie, Refusal>;

fn imported(host: u32, names: &[&str], lines: &[u8]) -> Result<Vec<Said>, String> {
    let fields: Vec<&[u8]> = names.iter().map(|name| name.as_bytes()).collect();
    let keys = cookie::names(&fields).ok_or("the names are too long")?;
    let mut all: Vec<&[u8]> = lines.split(|&byte| byte == b'\n').collect();
    // The last newline ends a line, and begins none.
    if all.last().is_some_and(|last| last.is_empty()) {
        all.pop();
    }
    let of_line = |line: &&[u8]| cookie::import(host, &keys, value_of(line));
    Ok(all.iter().map(of_line).collect())
}

/// Without carriage returns at the end, and without the header's name.
fn value_of(line: &[u8]) -> &[u8] {
    let end = line.iter().rposition(|&byte| byte != b'\r');
    let line = &line[..end.map_or(0, |end| end + 1)];
    let header = b"set-cookie:";
    match line.get(..header.len()) {
        Some(front) if front.eq_ignore_ascii_case(header) => &line[header.len()..],
        _ => line,
    }
}

/// What is told of each line, with the lines below it; what is told of all of them stands behind.
fn blocks(printed: &str) -> Vec<String> {
    let mut blocks: Vec<String> = Vec::new();
    for line in printed.lines() {
        match blocks.last_mut() {
            _ if line.starts_with("line ") => blocks.push(line.to_string()),
            Some(block) => *block += &format!("\n{line}"),
            None => {}
        }
    }
    blocks
}

fn compare(
    nth: usize,
    said: &Said,
    block: &str,
    host: u32,
    names: &[&str],
    context: &mut Context,
) -> Verdict {
    let first = block.lines().next().unwrap_or_default();
    let cookie = match said {
        Ok(cookie) => cookie,
        Err(refusal) => {
            context.seen.count("lines that are refused");
            let told = format!("line {nth}: refused {}: ", refusal.number());
            return same(block, &true, &first.starts_with(&told));
        }
    };
    context.seen.count("lines that are taken");
    let name = names[cookie.key as usize];
    let secure = if cookie.secure { ", Secure" } else { "" };
    let http_only = if cookie.http_only { ", HttpOnly" } else { "" };
    context
        .seen
        .count_many("lines that are Secure", usize::from(cookie.secure));
    let value = cookie.value;
    let expected = format!("line {nth}: {name} of host{host} = {value}{secure}{http_only}");
    same("what is told", &expected.as_str(), &first)?;
    clause(block, cookie, name, host, context)
}

/// The clause that is proposed is one of the language, and says what the line does.
fn clause(block: &str, cookie: &Cookie, name: &str, host: u32, context: &mut Context) -> Verdict {
    let mut lines = block.lines().skip(1).map(str::trim);
    let (declaration, readers) = (lines.next(), lines.next());
    let expected = format!("cookie {name} of host{host}");
    same("the clause", &Some(expected.as_str()), &declaration)?;
    let readers = readers.and_then(|line| line.strip_prefix("readers "));
    let readers = set(readers.ok_or("no readers")?)?;
    same("readers", &Endpoints::from_bits(cookie.readers), &readers)?;
    context.seen.count("clauses that are read back");
    Ok(())
}

/// The program import accepts the same lines, with the same keys, values and readers.
fn outside(
    host: u32,
    names: &[&str],
    lines: &[u8],
    expected: &[Said],
    context: &mut Context,
) -> Verdict {
    let Some(outside) = context.outside else {
        return Ok(());
    };
    let number = host.to_string();
    let arguments: Vec<&str> = [number.as_str()]
        .into_iter()
        .chain(names.iter().copied())
        .collect();
    let proved = outside.import(&arguments, lines)?.text()?;
    let told: Vec<&str> = proved.lines().collect();
    same("lines of the program import", &expected.len(), &told.len())?;
    for (line, cookie) in told.iter().zip(expected) {
        let is_told = match cookie {
            Err(refusal) => line.contains(&format!(": refused {}: ", refusal.number())),
            Ok(Cookie {
                key,
                value,
                readers,
                ..
            }) => line.contains(&format!("= 0x{readers:08x}, key {key}, value {value}")),
        };
        same(line, &true, &is_told)?;
    }
    context.seen.count("programs: import");
    Ok(())
}
