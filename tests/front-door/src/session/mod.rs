//! A session, fed by the library record by record, and what `run` tells of each record.

mod told;

use std::fmt::Write;

use zolherima::{requests, Request, State, CONNECTIONS, HOSTS};
use zolherima_program::file::{Sound, SourceFile};

use crate::context::{failed, same, Context, Verdict};
use crate::given::Walk;
use crate::library::{empty_state, fed, Fed};
use told::{Block, Told};

pub const EVENTS: &[&str] = &[
    "records accepted",
    "records refused",
    "records refused by labels",
    "requests sent",
    "requests sent with cookies",
    "cookies stored",
    "scripts run",
    "sessions traced",
];

pub fn check(walk: &Walk, context: &mut Context) -> Verdict {
    let (file, sound) = context.shown(walk)?;
    let traced = told(&file, &sound, true, context)?;
    let plain = told(&file, &sound, false, context)?;
    let mut state = empty_state();
    for (nth, record) in walk.records.iter().enumerate() {
        let fed = fed(&walk.policy, &walk.scripts, &state, record);
        let compared = compare(&state, &fed, &traced.blocks[nth], true)
            .and_then(|()| compare(&state, &fed, &plain.blocks[nth], false));
        compared.map_err(|why| format!("record {}: {why}", nth + 1))?;
        count(&fed, context);
        state = fed.state;
    }
    context.seen.count("sessions traced");
    let walked = walked(walk);
    same("what walk would print", &walked, &traced.walked()?)?;
    outside(walk, &file, &walked, context)
}

fn told(file: &SourceFile, sound: &Sound, trace: bool, context: &Context) -> Result<Told, String> {
    let text = context.front.run(file, sound, trace).map_err(failed)?;
    let told = Told::of(&text)?;
    let records = sound.plan.session.len();
    same("records that are told of", &records, &told.blocks.len())?;
    Ok(told)
}

/// What a record did, and what is told of it.
fn compare(before: &[u32], fed: &Fed, block: &Block, trace: bool) -> Verdict {
    let number = fed.answer.map_or_else(|refusal| refusal.number(), |_| 0);
    same("number", &number, &block.number)?;
    let sent: Result<Vec<Request>, _> = requests(&fed.out).collect();
    let sent = sent.map_err(|_| "the library sent what is no request")?;
    same("requests", &sent, &block.sent)?;
    let after = state_of(&fed.state);
    same(
        "cookies",
        &cookies(&after),
        &block.stored_over(cookies(&state_of(before)))?,
    )?;
    let steps = fed.answer.map_or(0, |accepted| accepted.steps);
    same("whether a script ran", &(steps > 0), &block.script_ended)?;
    if let Some(told) = block.steps {
        same("steps of a script that ended", &steps, &told)?;
    }
    if !trace {
        return Ok(());
    }
    same("steps", &steps, &block.traced_steps)?;
    same("cookies in the end", &cookies(&after), &block.cookies)?;
    let pending = (0..CONNECTIONS as u32).filter_map(|it| Some((it, after.pending(it)?)));
    same("what is awaited", &pending.collect(), &block.pending)
}

fn state_of(words: &[u32]) -> State {
    let words = words.try_into();
    State::from_words(words.expect("it has the words of a state"))
}

/// All cookies that are present: host, key and value.
fn cookies(state: &State) -> Vec<(u32, u32, u32)> {
    let hosts = 0..HOSTS as u32;
    let of_host = |host| {
        let cookies = state.cookies(host).iter();
        cookies.map(move |(key, value)| (host, key, value))
    };
    hosts.flat_map(of_host).collect()
}

/// What walk prints, by the library's answers.
fn walked(walk: &Walk) -> String {
    let mut text = String::new();
    let mut state = empty_state();
    let mut accepted = 0;
    for (nth, record) in walk.records.iter().enumerate() {
        let fed = fed(&walk.policy, &walk.scripts, &state, record);
        let line = match fed.answer {
            Ok(done) => [0, done.bytes as u32, done.steps, 32],
            Err(refusal) => {
                let missing = refusal.missing().map(|it| it.number());
                [refusal.number(), 0, 0, missing.unwrap_or(32)]
            }
        };
        accepted += usize::from(fed.answer.is_ok());
        let line = line.map(|number| number.to_string()).join(" ");
        let _ = writeln!(text, "{} {line}", nth + 1);
        requests(&fed.out)
            .flatten()
            .for_each(|request| told::put_request(&mut text, &request));
        state = fed.state;
    }
    let refused = walk.records.len() - accepted;
    text + &format!("end {accepted} {refused}\n")
}

fn count(fed: &Fed, context: &mut Context) {
    let seen = &mut context.seen;
    let (event, steps) = match fed.answer {
        Ok(accepted) => ("records accepted", accepted.steps),
        Err(refusal) => {
            let by_labels = usize::from(refusal.missing().is_some());
            seen.count_many("records refused by labels", by_labels);
            ("records refused", 0)
        }
    };
    seen.count(event);
    seen.count_many("scripts run", usize::from(steps > 0));
    let sent: Vec<Request> = requests(&fed.out).flatten().collect();
    seen.count_many("requests sent", sent.len());
    let with = sent.iter().filter(|it| !it.cookies.is_empty()).count();
    seen.count_many("requests sent with cookies", with);
    seen.count_many("cookies stored", cookies(&state_of(&fed.state)).len());
}

/// The program walk prints what is told of the same records, and zolherima what it does in here.
fn outside(walk: &Walk, file: &SourceFile, walked: &str, context: &mut Context) -> Verdict {
    let Some(outside) = context.outside else {
        return Ok(());
    };
    outside.walk(&walk.bytes())?.is(0, walked.as_bytes())?;
    let sound = crate::context::sound(file.text.clone())?.1;
    let text = context.front.run(file, &sound, true);
    let ended = outside.zolherima(&["run", "--trace", "-"], &file.text)?;
    ended.is_printed(0, &text)?;
    context.seen.count("programs: walk and run");
    Ok(())
}
