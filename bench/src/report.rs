//! The tables, in Markdown.

use std::fmt::Write;
use std::fs;
use std::process::Command;

use crate::growth::{self, Growth};
use crate::import;
use crate::journey;
use crate::reach;
use crate::tally;
use crate::timing::{measure as time, Times};
use crate::workload::{self, Session, Workload};

/// What the proved libraries may take, for what plain Rust takes: for a record, and for a list of requests.
const BAR: f64 = 1.1;
const LIST_BAR: f64 = 1.5;

pub struct Row {
    pub name: &'static str,
    pub times: Times,
    pub barred: bool,
}

pub struct Measured {
    pub rounds: usize,
    pub workloads: Vec<Row>,
    pub checks: Vec<Checks>,
    pub growth: Vec<Growth>,
    pub lists: Vec<tally::Row>,
    pub lines: Vec<import::Row>,
    pub line_growth: Vec<Growth>,
    pub journeys: Vec<journey::Row>,
    pub tables: Vec<reach::Row>,
}

/// What a call costs that is refused after number 2, after number 4, and the mean of the session.
pub struct Checks {
    name: &'static str,
    policy: Times,
    both: Times,
    whole: Times,
}

pub fn measure(rounds: usize) -> Measured {
    let workloads = workload::all();
    Measured {
        rounds,
        workloads: workloads
            .iter()
            .map(|workload| row(workload, rounds))
            .collect(),
        checks: workloads[..2]
            .iter()
            .map(|workload| checks(workload, rounds))
            .collect(),
        growth: growth::all(rounds),
        lists: tally::all(rounds),
        lines: import::all(rounds),
        line_growth: import::growth(rounds),
        journeys: journey::all(rounds),
        tables: reach::all(rounds),
    }
}

fn row(workload: &Workload, rounds: usize) -> Row {
    Row {
        name: workload.name,
        times: time(&workload.sessions, rounds),
        barred: workload.barred,
    }
}

fn checks(workload: &Workload, rounds: usize) -> Checks {
    let malformed = |session: &Session| workload::with(session, &[]);
    let no_scripts = |session: &Session| Session {
        scripts: Vec::new(),
        ..malformed(session)
    };
    let sessions = &workload.sessions;
    Checks {
        name: workload.name,
        policy: time(&sessions.iter().map(no_scripts).collect::<Vec<_>>(), rounds),
        both: time(&sessions.iter().map(malformed).collect::<Vec<_>>(), rounds),
        whole: time(sessions, rounds),
    }
}

pub fn tables(measured: &Measured) -> String {
    let mut text = String::new();
    let written = machine(&mut text, measured)
        .and_then(|()| workload_table(&mut text, &measured.workloads))
        .and_then(|()| check_table(&mut text, &measured.checks))
        .and_then(|()| {
            measured
                .growth
                .iter()
                .try_for_each(|growth| growth_table(&mut text, growth, ["feed", "feed_fast"]))
        })
        .and_then(|()| list_table(&mut text, &measured.lists))
        .and_then(|()| line_table(&mut text, &measured.lines))
        .and_then(|()| line_growth_tables(&mut text, &measured.line_growth))
        .and_then(|()| journey_table(&mut text, &measured.journeys))
        .and_then(|()| reach_table(&mut text, &measured.tables));
    written.expect("a string can be written to");
    text
}

fn machine(text: &mut String, measured: &Measured) -> std::fmt::Result {
    let cpu = fs::read_to_string("/proc/cpuinfo").unwrap_or_default();
    let name = cpu
        .lines()
        .find_map(|line| line.strip_prefix("model name")?.split_once(": "));
    let name = name.map_or("an unknown processor", |(_, name)| name);
    writeln!(
        text,
        "Measured on {name}, with {} and {}.",
        said("rustc", "--version"),
        said("rt", "version")
    )?;
    writeln!(
        text,
        "Nanoseconds for one call, best of {} rounds. The state is set where a session starts;",
        measured.rounds
    )?;
    writeln!(text, "neither state nor output is cleared between calls.\n")
}

fn said(program: &str, argument: &str) -> String {
    let output = Command::new(program).arg(argument).output();
    let text = output.map(|output| String::from_utf8_lossy(&output.stdout).trim().to_string());
    text.unwrap_or_else(|_| format!("an unknown {program}"))
}

fn workload_table(text: &mut String, rows: &[Row]) -> std::fmt::Result {
    writeln!(
        text,
        "| Workload | `feed` | `feed_fast` | ratio | bar |\n|---|--:|--:|--:|---|"
    )?;
    for row in rows {
        let Times { proved, by_hand } = row.times;
        let ratio = row.times.ratio();
        let bar = match row.barred {
            true => held(ratio, BAR),
            false => "",
        };
        writeln!(
            text,
            "| {} | {proved:.1} | {by_hand:.1} | {ratio:.2} | {bar} |",
            row.name
        )?;
    }
    writeln!(text)
}

fn held(ratio: f64, bar: f64) -> &'static str {
    match ratio <= bar {
        true => "met",
        false => "not met",
    }
}

fn check_table(text: &mut String, rows: &[Checks]) -> std::fmt::Result {
    writeln!(text, "| Checks in `feed` | number 2 | numbers 2 and 4 | a record | share | in `feed_fast` |\n|---|--:|--:|--:|--:|--:|")?;
    for Checks {
        name,
        policy,
        both,
        whole,
    } in rows
    {
        let share = |part: f64, all: f64| 100.0 * part / all;
        writeln!(
            text,
            "| {name} | {:.1} | {:.1} | {:.1} | {:.0} % | {:.0} % |",
            policy.proved,
            both.proved,
            whole.proved,
            share(both.proved, whole.proved),
            share(both.by_hand, whole.by_hand),
        )?;
    }
    writeln!(text)
}

/// With the names of what is measured: the proved one's, and that of plain Rust.
fn growth_table(
    text: &mut String,
    growth: &Growth,
    [proved, by_hand]: [&str; 2],
) -> std::fmt::Result {
    let cells = |cell: &dyn Fn(&(usize, Times)) -> String| {
        growth
            .points
            .iter()
            .map(|point| format!(" {} |", cell(point)))
            .collect::<String>()
    };
    writeln!(
        text,
        "| {} |{}",
        growth.by,
        cells(&|(at, _)| at.to_string())
    )?;
    writeln!(text, "|---|{}", "--:|".repeat(growth.points.len()))?;
    writeln!(
        text,
        "| `{proved}` |{}",
        cells(&|(_, times)| format!("{:.0}", times.proved))
    )?;
    writeln!(
        text,
        "| `{by_hand}` |{}\n",
        cells(&|(_, times)| format!("{:.0}", times.by_hand))
    )
}

fn list_table(text: &mut String, rows: &[tally::Row]) -> std::fmt::Result {
    writeln!(text, "Microseconds for one list of requests as long as may be, and nanoseconds for one of its records.\n")?;
    writeln!(text, "| List | records | `count` | `tally_fast` | a record in `count` | in `tally_fast` | ratio | bar |\n|---|--:|--:|--:|--:|--:|--:|---|")?;
    for row in rows {
        let Times { proved, by_hand } = row.times;
        let ratio = row.times.ratio();
        writeln!(
            text,
            "| {} | {:.0} | {:.1} | {:.1} | {:.2} | {:.2} | {ratio:.2} | {} |",
            row.name,
            row.records,
            proved / 1000.0,
            by_hand / 1000.0,
            proved / row.records,
            by_hand / row.records,
            held(ratio, LIST_BAR),
        )?;
    }
    writeln!(text)
}

fn line_table(text: &mut String, rows: &[import::Row]) -> std::fmt::Result {
    writeln!(text, "Nanoseconds for one Set-Cookie line.\n")?;
    let rows = rows.iter().map(|row| (row.name, row.bytes, &row.times));
    sized_table(text, ["Line", "bytes", "import", "import_fast"], rows)
}

fn line_growth_tables(text: &mut String, all: &[Growth]) -> std::fmt::Result {
    writeln!(
        text,
        "The same by the bytes of the line, which has a good pair and then what is named.\n"
    )?;
    all.iter()
        .try_for_each(|growth| growth_table(text, growth, ["import", "import_fast"]))
}

fn journey_table(text: &mut String, rows: &[journey::Row]) -> std::fmt::Result {
    writeln!(
        text,
        "Nanoseconds for the search of a connection for one journey.\n"
    )?;
    let rows = rows
        .iter()
        .map(|row| (row.name, row.urls as f64, &row.times));
    sized_table(text, ["Journey", "URLs", "find", "journey_find_fast"], rows)
}

fn reach_table(text: &mut String, rows: &[reach::Row]) -> std::fmt::Result {
    writeln!(text, "Nanoseconds for the reach table of one policy.\n")?;
    let rows = rows.iter().map(|row| (row.name, row.cells, &row.times));
    sized_table(text, ["Policy", "cells", "count", "reach_count_fast"], rows)
}

/// What each of some things of a size costs, by both functions.
fn sized_table<'a>(
    text: &mut String,
    [what, size, proved, by_hand]: [&str; 4],
    rows: impl Iterator<Item = (&'a str, f64, &'a Times)>,
) -> std::fmt::Result {
    writeln!(
        text,
        "| {what} | {size} | `{proved}` | `{by_hand}` | ratio |\n|---|--:|--:|--:|--:|"
    )?;
    for (name, size, times) in rows {
        let Times { proved, by_hand } = times;
        let ratio = times.ratio();
        writeln!(
            text,
            "| {name} | {size:.0} | {proved:.1} | {by_hand:.1} | {ratio:.2} |"
        )?;
    }
    writeln!(text)
}
