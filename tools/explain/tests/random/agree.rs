//! What holds of every explanation, beside that the library agrees.

use explain::{Event, Explained, Set, Why};
use zolherima::{requests, Policy, Refusal, Request, State};

pub fn check(policy: &Policy, before: &State, explained: &Explained) {
    match &explained.outcome {
        Ok(accepted) => check_accepted(accepted.steps, explained),
        Err((refusal, why)) => check_refused(before, *refusal, why, explained),
    }
    for event in &explained.events {
        check_asked(policy, event);
    }
}

/// What went out is what the events sent, and each step that counts is told.
fn check_accepted(steps: u32, explained: &Explained) {
    let written: Result<Vec<Request>, _> = requests(&explained.out).collect();
    let sent = explained.events.iter().filter_map(|event| match event {
        Event::Sent { request, .. } => Some(*request),
        _ => None,
    });
    assert_eq!(written, Ok(sent.collect()));
    let is_step = |event: &&Event| matches!(event, Event::StepRan { .. });
    let met = explained.events.iter().filter(is_step).count();
    assert_eq!(met, steps as usize);
    if let Some(Event::ScriptEnded { steps: counted, .. }) = explained.events.last() {
        assert_eq!(*counted, steps);
    }
}

/// Nothing changes, nothing happens, and of the first lack the lowest endpoint is told.
fn check_refused(before: &State, refusal: Refusal, why: &Why, explained: &Explained) {
    assert_eq!((&explained.state, explained.out.len()), (before, 0));
    let is_asked = |event: &Event| matches!(event, Event::AskedInstead { .. });
    assert!(explained.events.iter().all(is_asked) && explained.events.len() <= 1);
    let Why::Labels(lacks) = why else {
        assert_eq!((refusal.missing(), explained.events.len()), (None, 0));
        return;
    };
    assert_eq!(refusal.missing(), lacks[0].missing.lowest());
    let number = if lacks[0].set == Set::Readers { 8 } else { 9 };
    assert_eq!(refusal.number(), number);
}

fn check_asked(policy: &Policy, event: &Event) {
    if let Event::AskedInstead { named, asked } = event {
        assert_eq!(policy.partner(*named), Some(*asked));
    }
}
