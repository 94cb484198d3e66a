//! Advice on steps: where one is not allowed on a connection on which the file has its script run, or on all on which it could.

use policy_text::{Clause, Named, Script};
use zolherima::{Step, CONNECTIONS, KEYS, REGISTERS, SCRIPTS, STEP_BYTES};

use super::runs::Runs;
use super::Advised;
use crate::context::{same, Context, Verdict};

/// What is said at a step that is not allowed; that its handler is for another page may stand there too.
const STOPPED: [&str; 2] = ["the script would stop here", "this would be passed over"];

pub fn check(advised: &Advised, runs: &Runs, context: &mut Context) -> Verdict {
    for (number, script) in advised.plan().scripts.iter().enumerate() {
        let Some(script) = script else { continue };
        let Some(page) = &script.it.page else {
            continue;
        };
        let place = place(advised, runs, number, page.it);
        let known = if place.is_known {
            script.it.steps.len()
        } else {
            0
        };
        context
            .seen
            .count_many("steps of scripts whose connection is known", known);
        for step in &script.it.steps {
            judge(advised, runs, script, step, &place, context)?;
        }
    }
    Ok(())
}

/// Where a script runs: on the connections of the requests of its page whose handler it is, and on those on which the session has it run; or else
/// on those that its page can be on.
struct Place {
    page: u8,
    connections: Vec<usize>,
    is_known: bool,
}

fn place(advised: &Advised, runs: &Runs, script: usize, page: u32) -> Place {
    let mut connections = called(advised, script, page);
    let loading = |connection: &usize| runs.loads(*connection, page as usize);
    connections.extend(fed(advised, script, page).into_iter().filter(loading));
    let is_known = !connections.is_empty();
    if !is_known {
        connections = (0..CONNECTIONS).filter(loading).collect();
    }
    Place {
        page: page as u8,
        connections,
        is_known,
    }
}

fn called(advised: &Advised, script: usize, page: u32) -> Vec<usize> {
    let of_page = |it: &&Named<Script>| it.it.page.as_ref().is_some_and(|of| of.it == page);
    let scripts = advised.plan().scripts.iter().flatten().filter(of_page);
    let steps = scripts.flat_map(|it| it.it.steps.iter());
    steps
        .filter_map(|step| match step.it {
            [5, _, connection, handler] if usize::from(handler) == script => {
                Some(connection.into())
            }
            _ => None,
        })
        .collect()
}

/// By the bytes of the session's document responses.
fn fed(advised: &Advised, script: usize, page: u32) -> Vec<usize> {
    let asked = advised.sound.policy.asked_for(page);
    let records = advised.plan().session.iter();
    records
        .filter_map(|record| match record.it.bytes[..] {
            [0x0b, url, connection, run]
                if u32::from(url) == asked && usize::from(run) == script =>
            {
                Some(connection.into())
            }
            _ => None,
        })
        .collect()
}

fn judge(
    advised: &Advised,
    runs: &Runs,
    script: &Named<Script>,
    step: &Clause<[u8; STEP_BYTES]>,
    place: &Place,
    context: &mut Context,
) -> Verdict {
    let page = place.page;
    let is_advised = STOPPED
        .iter()
        .any(|label| advised.says(step.span, Some(label)));
    let what = format!(
        "{} of {}, of URL {page}: {:?}",
        script.name, step.span.start, step.it
    );
    if !is_of_labels(step.it) {
        return same(&what, &false, &is_advised);
    }
    if !is_in_range(advised, step.it) {
        // It ends the script anyway.
        return Ok(());
    }
    let taken: Option<Vec<bool>> = place
        .connections
        .iter()
        .map(|&connection| is_taken(runs, page, connection, step.it))
        .collect();
    // Where a request goes out on a connection that fits nothing, its handler never runs.
    let Some(taken) = taken else {
        return Ok(());
    };
    let is_stopped = match place.is_known {
        true => taken.contains(&false),
        false => !taken.is_empty() && !taken.contains(&true),
    };
    context.seen.count(event(is_stopped, step.it));
    same(&what, &is_stopped, &is_advised)
}

fn event(is_stopped: bool, step: [u8; STEP_BYTES]) -> &'static str {
    match (is_stopped, step[0]) {
        (false, _) => "steps that may be taken",
        (true, 4) => "writes that are passed over",
        (true, _) => "steps that may not be taken",
    }
}

/// Reads, writes and requests: nothing else is a matter of labels.
fn is_of_labels(step: [u8; STEP_BYTES]) -> bool {
    matches!(step[0], 3 | 4 | 5 | 7)
}

/// Whether all that such a step names is there.
fn is_in_range(advised: &Advised, step: [u8; STEP_BYTES]) -> bool {
    let is_url = |url: u8| advised.sound.policy.url(url.into()).is_some();
    let is_connection = |connection: u8| usize::from(connection) < CONNECTIONS;
    let is_key = |key: u8| usize::from(key) < KEYS;
    let is_register = |register: u8| usize::from(register) < REGISTERS;
    match Step::of(step) {
        Step::Read { register, key } | Step::Write { key, register } => {
            is_key(key) && is_register(register)
        }
        Step::Request {
            url,
            connection,
            handler,
        } => is_url(url) && is_connection(connection) && usize::from(handler) < SCRIPTS,
        Step::Picture { url, connection } => is_url(url) && is_connection(connection),
        _ => false,
    }
}

/// Whether the library does the step: it goes on after it, and a write is stored.
fn is_taken(runs: &Runs, page: u8, connection: usize, step: [u8; STEP_BYTES]) -> Option<bool> {
    /// What no other cookie has.
    const VALUE: u32 = 7;
    let mut step = step;
    if let [4, _, register, _] = &mut step {
        // The register that has the value.
        *register = 0;
    }
    let fed = runs.script(page, connection, step, VALUE)?;
    let steps = fed.answer.map_or(0, |accepted| accepted.steps);
    Some(match step[0] {
        4 => fed.state.contains(&VALUE),
        _ => steps == 2,
    })
}
