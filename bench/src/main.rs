//! Measures the proved libraries beside plain Rust: `feed_fast`, the same function tuned by hand, `tally_fast`, the same count in one pass,
//! `import_fast`, the same reading of a Set-Cookie line, `journey_find_fast`, the same search for a connection, and `reach_count_fast`, the same
//! count of what connections reach.
//!
//! Prints what it measured. With `--write FOLDER` it also puts the tables into FOLDER/PERFORMANCE.md, between the two lines that mark their
//! place, and writes the charts beside it.

mod chart;
mod growth;
mod import;
mod journey;
mod reach;
mod report;
mod tally;
mod timing;
mod workload;

use std::path::Path;
use std::process::ExitCode;
use std::{env, fs};

const USAGE: &str = "usage: bench [--rounds N] [--write FOLDER]";
const DEFAULT_ROUNDS: usize = 400;
const BEGIN: &str = "<!-- measured: written by bench -->";
const END: &str = "<!-- end of what is measured -->";

fn main() -> ExitCode {
    match run(&env::args().skip(1).collect::<Vec<_>>()) {
        Ok(()) => ExitCode::SUCCESS,
        Err(message) => {
            eprintln!("bench: {message}");
            ExitCode::from(2)
        }
    }
}

fn run(arguments: &[String]) -> Result<(), String> {
    let (rounds, folder) = parse(arguments)?;
    let measured = report::measure(rounds);
    let text = report::tables(&measured);
    print!("{text}");
    match folder {
        Some(folder) => write(Path::new(&folder), &measured, &text),
        None => Ok(()),
    }
}

fn parse(arguments: &[String]) -> Result<(usize, Option<String>), String> {
    let mut rounds = DEFAULT_ROUNDS;
    let mut folder = None;
    for pair in arguments.chunks(2) {
        match pair {
            [name, value] if name == "--rounds" => {
                rounds = value.parse().ok().filter(|&n| n > 0).ok_or(USAGE)?;
            }
            [name, value] if name == "--write" => folder = Some(value.clone()),
            _ => return Err(USAGE.to_string()),
        }
    }
    Ok((rounds, folder))
}

fn write(folder: &Path, measured: &report::Measured, text: &str) -> Result<(), String> {
    let page = folder.join("PERFORMANCE.md");
    let old = fs::read_to_string(&page).map_err(|e| format!("{}: {e}", page.display()))?;
    let missing = || format!("{} lacks the lines `{BEGIN}` and `{END}`", page.display());
    let (before, rest) = old.split_once(BEGIN).ok_or_else(missing)?;
    let (_, after) = rest.split_once(END).ok_or_else(missing)?;
    save(&page, &format!("{before}{BEGIN}\n\n{text}\n{END}{after}"))?;
    save(
        &folder.join("workloads.svg"),
        &chart::bars(&measured.workloads),
    )?;
    save(&folder.join("growth.svg"), &chart::lines(&measured.growth))
}

fn save(path: &Path, text: &str) -> Result<(), String> {
    fs::write(path, text).map_err(|e| format!("{}: {e}", path.display()))
}
