//! What Set-Cookie lines of a host say of its cookies, beside what the policy says: the command `import`.
//!
//! Each line is judged by `zolherima::cookie`, which is proved.

use policy_text::{Names, Plan};
use zolherima::cookie::{self, Cookie, Refusal, NAMES_BYTES, NAME_BYTES};
use zolherima::{Endpoint, Endpoints, Policy, KEYS};

use crate::failure::Failure;
use crate::table::{cut, listed};

/// The most bytes of lines that are read.
pub const LINES_BYTES: usize = 64 * 1024;

/// Of a name that no cookie has, no more letters are shown.
const NAME_LETTERS: usize = 40;
const HEADER: &[u8] = b"set-cookie";

/// The host that sent the lines.
struct Host<'a> {
    policy: &'a Policy,
    names: Names<'a>,
    number: u32,
    /// The names of its keys, as the library takes them.
    keys: [u8; NAMES_BYTES],
}

/// A line without what is taken off, and what it says.
struct Judged<'a> {
    text: &'a [u8],
    said: Result<Cookie, Refusal>,
}

/// What is said of lines, and how many were refused.
#[derive(Clone, Debug, PartialEq, Eq)]
pub struct Imported {
    pub text: String,
    pub refused: usize,
}

pub fn import(policy: &Policy, plan: &Plan, host: u32, lines: &[u8]) -> Result<Imported, Failure> {
    let length = lines.len();
    if length > LINES_BYTES {
        let why = format!("the lines have {length} bytes, and at most {LINES_BYTES} are read");
        return Err(Failure::Refused(why));
    }
    let host = Host {
        policy,
        names: Names::of(plan),
        number: host,
        keys: keys(plan, host)?,
    };
    let judged: Vec<Judged> = split(lines).map(|line| judged(&host, line)).collect();
    let told = judged.iter().enumerate();
    let told: Result<String, Failure> = told
        .map(|(place, line)| told_line(&host, place + 1, line))
        .collect();
    let refused = judged.iter().filter(|line| line.said.is_err()).count();
    let totals = format!("accepted {}, refused {refused}\n", judged.len() - refused);
    let text = told? + &differing(&host, &judged) + &totals;
    Ok(Imported { text, refused })
}

/// The names of the host's keys that are declared.
fn keys(plan: &Plan, host: u32) -> Result<[u8; NAMES_BYTES], Failure> {
    let cookies = plan.cookies.get(host as usize);
    let cookies = cookies.ok_or_else(|| Failure::Refused(format!("there is no host {host}")))?;
    let name = |key: usize| match cookies.get(key) {
        Some(Some(cookie)) => cookie.name.as_bytes(),
        _ => &[],
    };
    let names: [&[u8]; KEYS] = std::array::from_fn(name);
    cookie::names(&names).ok_or_else(|| too_long(&names))
}

fn too_long(names: &[&[u8]]) -> Failure {
    let long = names.iter().find(|name| name.len() > NAME_BYTES);
    let long = long.map(|name| String::from_utf8_lossy(name));
    let long = long.unwrap_or_default();
    Failure::Refused(format!(
        "Set-Cookie lines are read with names of at most {NAME_BYTES} bytes, and the cookie `{long}` has {}",
        long.len()
    ))
}

/// Each is ended by a newline, which the last may lack.
fn split(lines: &[u8]) -> impl Iterator<Item = &[u8]> {
    let ended = lines.strip_suffix(b"\n").unwrap_or(lines);
    let all = ended.split(|&byte| byte == b'\n');
    all.filter(|_| !lines.is_empty())
}

/// Without carriage returns at the end, and without the header's name where it stands there.
fn text_of(line: &[u8]) -> &[u8] {
    let returns = line.iter().rev().take_while(|&&byte| byte == b'\r');
    let line = &line[..line.len() - returns.count()];
    let colon = line.iter().position(|&byte| byte == b':');
    let header = colon.map(|colon| line.split_at(colon));
    match header {
        Some((name, value)) if name.eq_ignore_ascii_case(HEADER) => &value[1..],
        _ => line,
    }
}

fn judged<'a>(host: &Host, line: &'a [u8]) -> Judged<'a> {
    let text = text_of(line);
    let said = cookie::import(host.number, &host.keys, text);
    Judged { text, said }
}

fn told_line(host: &Host, number: usize, line: &Judged) -> Result<String, Failure> {
    match &line.said {
        Ok(cookie) => accepted(host, number, cookie),
        Err(refusal) => {
            let why = reason(host, *refusal, line.text);
            let by = refusal.number();
            Ok(format!("line {number}: refused {by}: {why}\n"))
        }
    }
}

/// Cookies that some lines let be read by http and others do not.
fn differing(host: &Host, lines: &[Judged]) -> String {
    let with = |key: u32, is_secure: bool| {
        let is_such = |line: &Judged| {
            let cookie = line.said.as_ref().ok();
            cookie.is_some_and(|cookie| cookie.key == key && cookie.secure == is_secure)
        };
        let numbers = (1..).zip(lines).filter(|(_, line)| is_such(line));
        listed(numbers.map(|(number, _)| number))
    };
    let differs = |key: u32| {
        let [with, without] = [true, false].map(|is_secure| with(key, is_secure));
        let cookie = host.names.cookie(host.number, key);
        let both = !with.is_empty() && !without.is_empty();
        both.then(|| {
            format!("{cookie}: lines with Secure {with}, without {without}: choose its readers\n")
        })
    };
    (0..KEYS as u32).filter_map(differs).collect()
}

fn reason(host: &Host, refusal: Refusal, line: &[u8]) -> String {
    match refusal {
        Refusal::NoKey => {
            let sent = cut(&name_of(line).escape_ascii().to_string(), NAME_LETTERS);
            let host = host.names.host(host.number);
            format!("{host} has no cookie `{sent}` in the policy")
        }
        other => other.to_string(),
    }
}

/// What stands before the first equals sign, without the blanks at both ends.
fn name_of(line: &[u8]) -> &[u8] {
    let end = line.iter().position(|&byte| byte == b'=');
    let name = &line[..end.unwrap_or(line.len())];
    let is_blank = |byte: &&u8| matches!(byte, b' ' | b'\t');
    let start = name.iter().take_while(is_blank).count();
    let name = &name[start..];
    let blanks = name.iter().rev().take_while(is_blank).count();
    &name[..name.len() - blanks]
}

/// What the line says, the clause for the policy, and how this compares with the policy as it is.
fn accepted(host: &Host, number: usize, cookie: &Cookie) -> Result<String, Failure> {
    let Host { names, .. } = host;
    let readers = readers(host, cookie)?;
    let name = names.cookie(host.number, cookie.key);
    let value = cookie.value;
    let secure = if cookie.secure { ", Secure" } else { "" };
    let http_only = if cookie.http_only { ", HttpOnly" } else { "" };
    let settled = names.set(readers);
    let compared = compared(host, cookie.key, readers);
    Ok(format!(
        "line {number}: {name} = {value}{secure}{http_only}\n    cookie {name}\n        readers {settled}\n    {compared}\n"
    ))
}

/// As the library tells, where that is what the attribute says.
fn readers(host: &Host, cookie: &Cookie) -> Result<Endpoints, Failure> {
    let https = Endpoint::https(host.number).into_iter();
    let http = Endpoint::http(host.number).filter(|_| !cookie.secure);
    let readers: Endpoints = https.chain(http).collect();
    match readers.bits() == cookie.readers {
        true => Ok(readers),
        false => Err(Failure::Bug(
            "the readers of a line and its attributes differ".to_string(),
        )),
    }
}

/// The policy's readers of a cookie beside those that a line settles.
fn compared(host: &Host, key: u32, settled: Endpoints) -> String {
    let labels = host.policy.cookie(host.number, key).unwrap_or_default();
    let more = labels.readers.except(settled);
    let fewer = settled.except(labels.readers);
    let [more_names, fewer_names] = [more, fewer].map(|set| host.names.set(set));
    match (more.is_empty(), fewer.is_empty()) {
        (true, true) => "the policy has just these readers".to_string(),
        (false, true) => format!("the policy lets {more_names} read it too"),
        (true, false) => format!("the policy does not let {fewer_names} read it"),
        (false, false) => format!(
            "the policy lets {more_names} read it too, and does not let {fewer_names} read it"
        ),
    }
}

#[cfg(test)]
mod tests {
    use super::*;
    use crate::examples::{assert_shown, read, SMALL_POST};

    fn text_of(lines: &[u8]) -> String {
        let (policy, plan) = read(SMALL_POST);
        import(&policy, &plan, 0, lines).unwrap().text
    }

    #[test]
    fn lines_are_told_with_their_clauses() {
        let lines = b"sid=7\nSet-Cookie: sid=8; Secure; HttpOnly\r\nlang=4294967295; Path=/\n\
                      cart=1\nsid=+7\nsid\n";
        let printed = "\
line 1: sid of post = 7
    cookie sid of post
        readers post
    the policy has just these readers
line 2: sid of post = 8, Secure, HttpOnly
    cookie sid of post
        readers https post
    the policy lets http post read it too
line 3: lang of post = 4294967295
    cookie lang of post
        readers post
    the policy lets shop read it too, and does not let http post read it
line 4: refused 15: post has no cookie `cart` in the policy
line 5: refused 16: the value is not one to ten digits that make at most 4294967295
line 6: refused 14: the pair has no equals sign, or no name before it
sid of post: lines with Secure 2, without 1: choose its readers
accepted 3, refused 3
";
        assert_eq!(text_of(lines), printed);
    }

    #[test]
    fn the_page_shows_what_is_printed() {
        let page = include_str!("../../../docs/IMPORT.md");
        let text = "\
host canteen
cookie sid of canteen
    readers canteen
    writers https canteen
cookie lang of canteen
    readers https canteen
    writers https canteen
";
        let (policy, plan) = read(text);
        assert_shown(page, text);
        let lines = b"sid=8; Secure; HttpOnly\nlang=1\ncart=1\n";
        assert_shown(page, &import(&policy, &plan, 0, lines).unwrap().text);
    }

    #[test]
    fn a_policy_may_have_fewer_readers() {
        let (_, plan) = read(SMALL_POST);
        let (policy, _) = read("");
        let printed = import(&policy, &plan, 0, b"sid=1; secure").unwrap().text;
        assert!(printed.contains("\n    the policy does not let https post read it\n"));
    }

    #[test]
    fn lines_are_those_of_the_program_import() {
        let of = |lines: &'static [u8]| Vec::from_iter(split(lines));
        assert_eq!(of(b""), Vec::<&[u8]>::new());
        assert_eq!(of(b"\n"), [b""]);
        assert_eq!(of(b"a\n\nb"), [&b"a"[..], b"", b"b"]);
        assert_eq!(of(b"a\n\n"), [&b"a"[..], b""]);
        assert_eq!(text_of_line(b"SET-cookie: a=1\r\r"), b" a=1");
        assert_eq!(text_of_line(b"Set-Cookie : a=1"), b"Set-Cookie : a=1");
        assert_eq!(text_of_line(b"\r"), b"");
        assert_eq!(text_of_line(b"set-cookie:"), b"");
    }

    fn text_of_line(line: &[u8]) -> &[u8] {
        super::text_of(line)
    }

    #[test]
    fn what_cannot_be_shown_is_written_out() {
        let printed = text_of(b" \x1b[31m\xff =1\n\0=1");
        assert!(printed.starts_with("line 1: refused 15: post has no cookie `\\x1b[31m\\xff` in"));
        assert!(printed.contains("line 2: refused 15: post has no cookie `\\x00` in"));
        let long = [&[b'a'; 1000][..], b"=1"].concat();
        let cut = format!("`{}…`", "a".repeat(39));
        assert!(text_of(&long).contains(&cut));
    }

    #[test]
    fn what_does_not_fit_is_refused() {
        let (policy, plan) = read(SMALL_POST);
        let why = |host: u32, lines: &[u8]| {
            let failure = import(&policy, &plan, host, lines).err().unwrap();
            failure.to_string()
        };
        assert_eq!(why(16, b""), "there is no host 16");
        let long = why(0, &[b'\n'; LINES_BYTES + 1]);
        let more = LINES_BYTES + 1;
        assert_eq!(
            long,
            format!("the lines have {more} bytes, and at most {LINES_BYTES} are read")
        );
        assert_eq!(
            text_of(&[b'\n'; LINES_BYTES]).lines().count(),
            LINES_BYTES + 1
        );
    }

    #[test]
    fn a_name_may_have_16_bytes() {
        let of = |name: &str| {
            let text = format!("host post\ncookie {name} of post\nreaders nobody\nwriters nobody");
            let (policy, plan) = read(&text);
            import(&policy, &plan, 0, format!("{name}=1").as_bytes())
        };
        assert!(of("abcdefghijklmnop")
            .unwrap()
            .text
            .ends_with("accepted 1, refused 0\n"));
        let why = "Set-Cookie lines are read with names of at most 16 bytes, and the cookie `abcdefghijklmnopq` has 17";
        assert_eq!(
            of("abcdefghijklmnopq"),
            Err(Failure::Refused(why.to_string()))
        );
    }
}
