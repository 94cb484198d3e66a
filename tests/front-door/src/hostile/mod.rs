//! Any bytes as a file: what is wrong is told at a place in the file, nothing panics, and all ends soon.

pub mod change;
pub mod large;
pub mod make;

use std::time::{Duration, Instant};

use policy_text::{render, Diagnostic, Level, WALK_BYTES};
use zolherima_program::check::check as checked;
use zolherima_program::file::{Sound, SourceFile};

use crate::context::{failed, file, Context, Verdict};

pub const EVENTS: &[&str] = &[
    "texts with errors",
    "texts with faults",
    "texts that are taken",
    "texts that are taken, with advice",
    "changed sessions that were run",
    "large texts",
];

/// A text below 64 KiB is done with before this.
const PATIENCE: Duration = Duration::from_secs(2);

/// The most columns of a line that is told of what cannot be read.
const COLUMNS: usize = 200;

/// The same of faults and advice, which name all endpoints of a set.
const COLUMNS_WITH_SETS: usize = 6_000;

/// The most errors that are told, and one more for how many are not.
const MOST_ERRORS: usize = 21;

pub fn check(text: &[u8], context: &mut Context) -> Verdict {
    let begun = Instant::now();
    let verdict = judged(text, context);
    let took = begun.elapsed();
    verdict.and(match took < PATIENCE {
        true => Ok(()),
        false => Err(format!("{} bytes take {took:?}", text.len())),
    })
}

/// All that is done with a file, without a look at the time.
pub fn judged(text: &[u8], context: &mut Context) -> Verdict {
    let file = file(text.to_vec());
    match file.sound() {
        Err(wrong) => errors(&file, &wrong, context)?,
        Ok(sound) => taken(&file, &sound, context)?,
    }
    let checked = checked(&file);
    if let Some(outside) = context.outside {
        let ended = outside.zolherima(&["check", "-"], text)?;
        let status = i32::from(!checked.is_taken);
        ended.is(status, checked.text.as_bytes())?;
        context.seen.count("programs: check");
    }
    Ok(())
}

fn errors(file: &SourceFile, wrong: &[Diagnostic], context: &mut Context) -> Verdict {
    let is_read = context.front.parse(&file.text).is_ok();
    context.seen.count(match is_read {
        true => "texts with faults",
        false => "texts with errors",
    });
    if wrong.is_empty() || wrong.iter().any(|it| it.level != Level::Error) {
        return Err("a text is not taken, and no error is told".to_string());
    }
    if !is_read && wrong.len() > MOST_ERRORS {
        return Err(format!("{} errors are told", wrong.len()));
    }
    let starts: Vec<usize> = wrong.iter().filter_map(|it| Some(it.span?.start)).collect();
    if !is_read && !starts.is_sorted() {
        return Err(format!(
            "errors are not in the order of the text: {starts:?}"
        ));
    }
    let columns = if is_read { COLUMNS_WITH_SETS } else { COLUMNS };
    told(file, wrong, columns)
}

/// Each has its place in the file, and can be printed.
fn told(file: &SourceFile, diagnostics: &[Diagnostic], columns: usize) -> Verdict {
    for diagnostic in diagnostics {
        let span = diagnostic.span;
        if span.is_some_and(|it| it.start > it.end || it.end > file.text.len()) {
            return Err(format!("outside the text: {diagnostic:?}"));
        }
        printable(&render(diagnostic, &file.name, &file.text), columns)?;
    }
    Ok(())
}

fn printable(text: &str, columns: usize) -> Verdict {
    let is_wide = |line: &&str| line.chars().count() > columns;
    if let Some(line) = text.lines().find(is_wide) {
        let columns = line.chars().count();
        return Err(format!("a line has {columns} columns: {line}"));
    }
    let controls = |sign: char| sign.is_control() && sign != '\n';
    match text.chars().any(controls) || !text.ends_with('\n') {
        true => Err(format!("cannot be printed: {text:?}")),
        false => Ok(()),
    }
}

/// A text that is taken does what any other does.
fn taken(file: &SourceFile, sound: &Sound, context: &mut Context) -> Verdict {
    let front = context.front;
    let advice = front.advice(file, sound);
    context.seen.count("texts that are taken");
    if !advice.is_empty() {
        context.seen.count("texts that are taken, with advice");
    }
    told(file, &advice, COLUMNS_WITH_SETS)?;
    let bytes = front.compile(&sound.plan);
    if bytes.len() > WALK_BYTES {
        return Err(format!("walk does not take {} bytes", bytes.len()));
    }
    let again = front.show(&bytes).map_err(failed)?;
    let again = crate::context::sound(again.into_bytes())?.1;
    if front.compile(&again.plan) != bytes {
        return Err("the text of what a text makes makes other bytes".to_string());
    }
    if !sound.plan.session.is_empty() {
        context.seen.count("changed sessions that were run");
    }
    front.run(file, sound, true).map_err(failed)?;
    front.reach(sound).map_err(failed)?;
    Ok(())
}
