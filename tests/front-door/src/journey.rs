//! Which connection carries a journey, and where the others stop, as `journey` prints it.

use cases::policy_bytes::policy_bytes;
use zolherima::{journeys, Cookies, Policy, Record, Refusal, CONNECTIONS, SCRIPT_BYTES};

use crate::context::{failed, same, Context, Verdict};
use crate::given::Walk;
use crate::library::{empty_state, fed};
use crate::read::{between, number, set};

pub const EVENTS: &[&str] = &[
    "journeys that are carried",
    "journeys that are not",
    "connections that stop at once",
    "connections that stop later",
    READERS,
    WRITERS,
];

const READERS: &str = "reasons of readers";
const WRITERS: &str = "reasons of writers";

/// Where a connection stops, and the refusal there.
type Stop = (usize, Refusal);

pub fn check(walk: &Walk, urls: &[u8], context: &mut Context) -> Verdict {
    let (file, sound) = context.shown(walk)?;
    let numbers: Vec<u32> = urls.iter().map(|&url| url.into()).collect();
    let text = context
        .front
        .journey(&file, &sound, &numbers)
        .map_err(failed)?;
    let stops: Vec<Option<Stop>> = (0..CONNECTIONS as u8)
        .map(|connection| stop(&sound.policy, urls, connection))
        .collect();
    let found = journeys::find(&walk.policy, urls).map_err(|refusal| refusal.to_string())?;
    for (connection, stop) in (0..).zip(&stops) {
        let told = journeys::stop(&walk.policy, urls, connection);
        let told = told.map_err(|refusal| refusal.to_string())?;
        let told = told.map(|it| (it.place as usize, it.refusal));
        same("where it stops, fed", &told, stop)?;
    }
    let lowest = stops.iter().position(Option::is_none);
    same("the connection, fed", &found, &lowest.map(|it| it as u32))?;
    same(
        "the answer",
        &answer(found),
        &text.lines().next().unwrap_or_default().to_string(),
    )?;
    marks(&text, urls.len(), &stops)?;
    if found.is_none() {
        let declared = sound.plan.connections.iter().flatten().count();
        reasons(&text, declared, &stops, context)?;
    }
    count(found, &stops, context);
    outside(walk, urls, found, &file.text, &text, context)
}

fn answer(found: Option<u32>) -> String {
    match found {
        Some(connection) => format!("connection connection{connection} carries this journey"),
        None => "no connection carries this journey".to_string(),
    }
}

/// By the monitor: the load, and then each redirect from where the one before led.
fn stop(policy: &Policy, urls: &[u8], connection: u8) -> Option<Stop> {
    let mut state = empty_state();
    let mut held = None;
    for (place, &url) in urls.iter().enumerate() {
        let record = match held {
            None => Record::load(url, connection),
            Some(held) => Record::redirect(held, connection, &Cookies::NONE, url),
        };
        let fed = fed(policy.words(), &[0; SCRIPT_BYTES], &state, &record);
        if let Err(refusal) = fed.answer {
            return Some((place, refusal));
        }
        state = fed.state;
        held = Some(policy.asked_for(url.into()) as u8);
    }
    None
}

/// Each row of the table has the marks that where it stops calls for.
fn marks(text: &str, urls: usize, stops: &[Option<Stop>]) -> Verdict {
    let table = text.split("\n\n").nth(1).ok_or("no table")?;
    let is_row = |line: &&str| line.starts_with("connection") && !line.starts_with("connection ");
    for line in table.lines().filter(is_row) {
        let (name, told) = line.split_once(' ').ok_or("no marks")?;
        let told: String = told.split_whitespace().collect();
        let stop = stops[number(name)? as usize].map(|(place, _)| place);
        let mark = |place| match stop {
            Some(stop) if stop == place => '!',
            Some(stop) if stop < place => '.',
            _ => 'x',
        };
        let expected: String = (0..urls).map(mark).collect();
        same(line, &expected, &told)?;
    }
    Ok(())
}

/// Each connection that is told of stops where it does, and lacks first what is told first.
fn reasons(text: &str, declared: usize, stops: &[Option<Stop>], context: &mut Context) -> Verdict {
    let blocks: Vec<&str> = text
        .split("\n\n")
        .filter(|it| it.contains(" stops at "))
        .collect();
    for block in &blocks {
        let connection = number(between(block, "connection ", " stops at")?)?;
        let (place, refusal) = stops[connection as usize].ok_or("it does not stop")?;
        same(
            block,
            &(place as u32 + 1),
            &number(between(block, " (", " of ")?)?,
        )?;
        let (event, missing) = missing(block)?;
        context.seen.count(event);
        let told = (event, set(missing)?.lowest());
        let expected = match refusal {
            Refusal::ReadersForbid { missing } => (READERS, Some(missing)),
            Refusal::WritersForbid { missing } => (WRITERS, Some(missing)),
            other => return Err(format!("refused otherwise: {other}")),
        };
        same(block, &expected, &told)?;
    }
    same("connections that are told of", &declared, &blocks.len())
}

/// Of which set, and what is missing: `http host1 is missing among the readers of connection connection2`.
fn missing(block: &str) -> Result<(&'static str, &str), String> {
    let why = block.lines().nth(1).ok_or("no reason")?.trim_start();
    let parts = why.split_once(" is missing among the ");
    let parts = parts.or(why.split_once(" are missing among the "));
    let (missing, of) = parts.ok_or_else(|| format!("nothing is missing: {why:?}"))?;
    match of.split(' ').next() {
        Some("readers") => Ok((READERS, missing)),
        Some("writers") => Ok((WRITERS, missing)),
        _ => Err(format!("neither readers nor writers: {why:?}")),
    }
}

fn count(found: Option<u32>, stops: &[Option<Stop>], context: &mut Context) {
    let seen = &mut context.seen;
    seen.count(match found {
        Some(_) => "journeys that are carried",
        None => "journeys that are not",
    });
    for (place, _) in stops.iter().flatten() {
        seen.count(match place {
            0 => "connections that stop at once",
            _ => "connections that stop later",
        });
    }
}

/// The program journey tells the same connection, or that there is none, and zolherima ends with what it found.
fn outside(
    walk: &Walk,
    urls: &[u8],
    found: Option<u32>,
    file: &[u8],
    text: &str,
    context: &mut Context,
) -> Verdict {
    let Some(outside) = context.outside else {
        return Ok(());
    };
    let numbers: Vec<String> = urls.iter().map(u8::to_string).collect();
    let numbers: Vec<&str> = numbers.iter().map(String::as_str).collect();
    let proved = outside
        .journey(&numbers, &policy_bytes(&walk.policy))?
        .text()?;
    let expected = found.map_or("none".to_string(), |connection| connection.to_string());
    same(
        "the program journey",
        &Some(expected.as_str()),
        &proved.lines().next(),
    )?;
    let names: Vec<String> = urls.iter().map(|url| format!("url{url}")).collect();
    let names = names.iter().map(String::as_str);
    let arguments: Vec<&str> = ["journey", "-"].into_iter().chain(names).collect();
    let ended = outside.zolherima(&arguments, file)?;
    ended.is(i32::from(found.is_none()), text.as_bytes())?;
    context.seen.count(match found {
        Some(_) => "programs: journey that is carried",
        None => "programs: journey that is not",
    });
    Ok(())
}
