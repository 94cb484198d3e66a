//! Which connection reaches which URL, as `reach` prints it.

use cases::policy_bytes::policy_bytes;
use zolherima::{reach_table, CONNECTIONS, URLS};

use crate::context::{failed, same, Context, Verdict};
use crate::given::Walk;
use crate::read::number;

pub const EVENTS: &[&str] = &[
    "connections that reach something",
    "connections that reach nothing",
    "tables with names",
    "tables with numbers",
    "tables without URLs",
];

/// A row of the table: the connection, its count, and a mark for each URL.
type Row = (u32, u32, String);

pub fn check(walk: &Walk, context: &mut Context) -> Verdict {
    let (file, sound) = context.shown(walk)?;
    let text = context.front.reach(&sound).map_err(failed)?;
    let (table, rest) = text.split_once("\n\n").ok_or("no end of the table")?;
    let urls: Vec<u32> = (0..URLS as u32)
        .filter(|&url| sound.policy.url(url).is_some())
        .collect();
    let rows = rows(table, urls.len())?;
    same("cells", &expected(&walk.policy, &urls, &rows)?, &rows)?;
    let shown = rows.iter().map(|row| row.0);
    let mut told: Vec<u32> = shown.chain(left_out(rest)?).collect();
    told.sort_unstable();
    same("connections", &(0..CONNECTIONS as u32).collect(), &told)?;
    let all = rest
        .lines()
        .next()
        .and_then(|line| line.strip_prefix("all "));
    let counts = reach_table::count(&walk.policy).map_err(|_| "the policy is refused")?;
    same("all", &Some(counts.all.to_string().as_str()), &all)?;
    count(&rows, table, &urls, context);
    outside(walk, &rows, counts.all, &file.text, &text, context)
}

/// Names or numbers stand above the marks, which may stand apart.
fn rows(table: &str, urls: usize) -> Result<Vec<Row>, String> {
    let lines = table
        .lines()
        .filter(|line| line.starts_with("connection") && !line.starts_with("connection "));
    let row = |line: &str| {
        let mut words = line.split_whitespace();
        let name = words.next().unwrap_or_default();
        let count = words.next().unwrap_or_default();
        let marks: String = words.collect();
        match marks.len() == urls {
            true => Ok((number(name)?, number(count)?, marks)),
            false => Err(format!("not a mark for each of {urls} URLs: {line:?}")),
        }
    };
    lines.map(row).collect()
}

/// The same rows, by the library.
fn expected(policy: &[u32], urls: &[u32], rows: &[Row]) -> Result<Vec<Row>, String> {
    let counts = reach_table::count(policy).map_err(|_| "the policy is refused")?;
    let row = |&(connection, _, _): &Row| {
        let mark = |&url: &u32| match reach_table::fits(policy, connection, url) {
            true => 'x',
            false => '.',
        };
        let marks = urls.iter().map(mark).collect();
        (connection, counts.urls[connection as usize], marks)
    };
    Ok(rows.iter().map(row).collect())
}

/// `Connections that are not declared reach nothing: 1, 3 to 31.`
fn left_out(text: &str) -> Result<Vec<u32>, String> {
    let line = text
        .lines()
        .find_map(|line| line.split_once("reach nothing: "));
    let Some((_, list)) = line else {
        return Ok(Vec::new());
    };
    let mut all = Vec::new();
    for run in list.trim_end_matches('.').split(", ") {
        let (first, last) = run.split_once(" to ").unwrap_or((run, run));
        all.extend(number(first)?..=number(last)?);
    }
    Ok(all)
}

fn count(rows: &[Row], table: &str, urls: &[u32], context: &mut Context) {
    let seen = &mut context.seen;
    let reaching = rows.iter().filter(|row| row.1 > 0).count();
    seen.count_many("connections that reach something", reaching);
    seen.count_many("connections that reach nothing", rows.len() - reaching);
    seen.count(match (urls.is_empty(), table.contains(" url")) {
        (true, _) => "tables without URLs",
        (false, true) => "tables with names",
        (false, false) => "tables with numbers",
    });
}

/// The program reach counts the same; those without a row reach nothing.
fn outside(
    walk: &Walk,
    rows: &[Row],
    all: u32,
    file: &[u8],
    text: &str,
    context: &mut Context,
) -> Verdict {
    let Some(outside) = context.outside else {
        return Ok(());
    };
    let counted = |connection| {
        rows.iter()
            .find(|row| row.0 == connection)
            .map_or(0, |row| row.1)
    };
    let lines = (0..CONNECTIONS as u32).map(|it| format!("{it} {}\n", counted(it)));
    let expected = lines.collect::<String>() + &format!("all {all}\n");
    outside
        .reach(&policy_bytes(&walk.policy))?
        .is(0, expected.as_bytes())?;
    outside
        .zolherima(&["reach", "-"], file)?
        .is(0, text.as_bytes())?;
    context.seen.count("programs: reach");
    Ok(())
}
