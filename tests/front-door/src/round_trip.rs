//! From words to a text and back, and from that to the same text.

use cases::policy_bytes::POLICY_BYTES;
use zolherima::SCRIPT_BYTES;
use zolherima_program::check::check as checked;

use crate::context::{failed, file, same, Context, Verdict};
use crate::front::Front;
use crate::given::Walk;

pub const EVENTS: &[&str] = &[
    "round trips of policies",
    "round trips with a session",
    "entries shown",
    "partners shown",
    "plain steps shown",
    "plain records shown",
];

pub fn check(walk: &Walk, context: &mut Context) -> Verdict {
    let bytes = walk.bytes();
    let text = of_bytes(&bytes, context.front)?;
    let alone = of_bytes(&bytes[..POLICY_BYTES], context.front)?;
    count(&text, context);
    if alone.contains("\nscript ") || alone.contains("\nsession") {
        return Err("the text of a policy alone has scripts or a session".to_string());
    }
    outside(&bytes, &text, context)
}

/// The text of some bytes, which is taken and makes just them.
fn of_bytes(bytes: &[u8], front: &dyn Front) -> Result<String, String> {
    let text = front.show(bytes).map_err(failed)?;
    let plan = front.parse(text.as_bytes());
    let plan = plan.map_err(|wrong| format!("what is shown has errors: {wrong:?}\n{text}"))?;
    let compiled = front.compile(&plan);
    let mut whole = bytes.to_vec();
    if whole.len() == POLICY_BYTES {
        // A policy alone has no scripts.
        whole.resize(POLICY_BYTES + SCRIPT_BYTES, 0);
    }
    if compiled != whole {
        let differ = (0..whole.len()).find(|&at| compiled.get(at) != whole.get(at));
        return Err(format!(
            "the text makes other bytes, from {differ:?} on:\n{text}"
        ));
    }
    let again = front.show(&compiled).map_err(failed)?;
    same("the text of what a text makes", &text, &again)?;
    match checked(&file(text.clone().into_bytes())).is_taken {
        true => Ok(text),
        false => Err(format!("check does not take what is shown:\n{text}")),
    }
}

fn count(text: &str, context: &mut Context) {
    let seen = &mut context.seen;
    seen.count("round trips of policies");
    let marks = [
        ("\nsession\n", "round trips with a session"),
        (" entry", "entries shown"),
        ("\n  partner ", "partners shown"),
        ("\n  step ", "plain steps shown"),
        ("\n  record", "plain records shown"),
    ];
    for (mark, event) in marks {
        seen.count_many(event, usize::from(text.contains(mark)));
    }
}

/// The program does the same.
fn outside(bytes: &[u8], text: &str, context: &mut Context) -> Verdict {
    let Some(outside) = context.outside else {
        return Ok(());
    };
    let shown = outside.zolherima(&["show", "-"], bytes)?;
    shown.is(0, text.as_bytes())?;
    let compiled = outside.zolherima(&["compile", "-"], text.as_bytes())?;
    compiled.is(0, bytes)?;
    context.seen.count("programs: show and compile");
    Ok(())
}
