//! How many requests went to each URL, as `tally` prints it.

use zolherima::usage::{self, Tally};
use zolherima::URLS;
use zolherima_program::failure::Failure;

use crate::context::{failed, same, Context, Verdict};
use crate::given::Walk;
use crate::read::{between, number};

pub const EVENTS: &[&str] = &[
    "lists of requests",
    "lists without requests",
    "lists that are none",
];

pub fn check(walk: &Walk, list: &[u8], context: &mut Context) -> Verdict {
    let (_, sound) = context.shown(walk)?;
    let printed = context.front.tally(&sound, list);
    let is_list = match (usage::count(list), printed) {
        (Ok(tally), printed) => {
            let text = printed.map_err(failed)?;
            same("tally", &lines_of(&tally), &lines_in(&text)?)?;
            context.seen.count(match tally.all_records {
                0 => "lists without requests",
                _ => "lists of requests",
            });
            true
        }
        (Err(_), Err(Failure::Refused(_))) => {
            context.seen.count("lists that are none");
            false
        }
        (Err(_), other) => return Err(format!("what is no list is not refused: {other:?}")),
    };
    outside(list, is_list, context)
}

/// What the program tally prints.
fn lines_of(tally: &Tally) -> String {
    let used = (0..URLS).filter(|&url| tally.records[url] > 0);
    let lines = used.map(|url| format!("{url} {} {}\n", tally.records[url], tally.cookies[url]));
    let all = format!("all {} {}\n", tally.all_records, tally.all_cookies);
    lines.collect::<String>() + &all
}

/// The same, from the table.
fn lines_in(text: &str) -> Result<String, String> {
    let (table, all) = text.split_once("\n\n").ok_or("no end of the table")?;
    let mut lines = String::new();
    for row in table.lines().skip(1) {
        // What is not declared is `URL 5`.
        let row = row.trim_start_matches("URL ");
        let cells: Vec<&str> = row.split_whitespace().collect();
        let [url, requests, cookies, ..] = cells[..] else {
            return Err(format!("no row: {row:?}"));
        };
        let numbers = [number(url)?, number(requests)?, number(cookies)?];
        let numbers = numbers.map(|number| number.to_string());
        lines += &format!("{}\n", numbers.join(" "));
    }
    let requests = number(between(all, "requests ", ",")?)?;
    let cookies = number(between(all, "cookies ", "\n")?)?;
    Ok(lines + &format!("all {requests} {cookies}\n"))
}

/// The program tally prints the same, or `bad`.
fn outside(list: &[u8], is_list: bool, context: &mut Context) -> Verdict {
    let Some(outside) = context.outside else {
        return Ok(());
    };
    let ended = outside.tally(list)?;
    let expected = match (is_list, usage::count(list)) {
        (true, Ok(tally)) => lines_of(&tally),
        _ => "bad\n".to_string(),
    };
    ended.is(0, expected.as_bytes())?;
    context.seen.count(match is_list {
        true => "programs: tally",
        false => "programs: tally of what is no list",
    });
    Ok(())
}
