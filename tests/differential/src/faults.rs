//! The test can fail: monitors with a single fault each are told from the reference, by the thing that the fault changes.

use cases::difference::Difference;
use cases::guarded::flip;
use cases::labels::{DOCUMENT, OPEN_AT, PICTURE, SCRIPT, STEP_BYTES};
use cases::record::{COOKIES, DOCUMENT_RESPONSE, PICTURE_RESPONSE, REDIRECT, SCRIPT_RESPONSE};
use reference::layout::NONE_MISSING;
use reference::numbers::{CUT_OR_TOO_LONG, KEY_MAP_EMPTY, READERS_FORBID, WRITERS_FORBID};
use reference::Answer;
use zolherima::Refusal;

use crate::asked::pending;
use crate::buffers::Buffers;
use crate::case::play;
use crate::checker::{Checker, Monitor};
use crate::monitors;

/// So many cases are passed by an honest monitor; a fault is found in them or, where it is rare, in so many more.
const HONEST_CASES: u64 = 64;
const CASES: u64 = 4_096;

/// The first difference that some cases find.
fn first_difference(monitor: Monitor, cases: u64) -> Option<Difference> {
    let mut checker = Checker::new(monitor);
    (0..cases).find_map(|case| {
        let played = play(1, case, |_, call, random| checker.check(call, random));
        played.err().map(|failure| failure.error)
    })
}

pub fn honest(buffers: &mut Buffers) -> Answer {
    reference::feed(
        buffers.policy.inside(),
        buffers.scripts.inside(),
        buffers.state.inside_mut(),
        buffers.record.inside(),
        buffers.out.inside_mut(),
    )
}

/// A monitor that gives another answer than it should.
pub fn answering(change: impl Fn(Answer) -> Answer + 'static) -> Monitor {
    Box::new(move |buffers| change(honest(buffers)))
}

/// One number answered as another.
fn confused(answer: Answer, right: u32, wrong: u32) -> Answer {
    let number = match answer.number == right {
        true => wrong,
        false => answer.number,
    };
    Answer { number, ..answer }
}

type Spoil = fn(Answer, &mut Buffers);

/// A monitor that does what it should and then something more.
fn spoiling(spoil: Spoil) -> Monitor {
    Box::new(move |buffers| {
        let answer = honest(buffers);
        spoil(answer, buffers);
        answer
    })
}

/// A monitor that takes what it is lent for something else, where it then accepts it.
pub fn mistaking(mistake: impl Fn(&mut Buffers) + 'static) -> Monitor {
    Box::new(move |buffers| {
        let mut mistaken = buffers.clone();
        mistake(&mut mistaken);
        let answer = honest(&mut mistaken);
        if answer.number != 0 {
            return honest(buffers);
        }
        buffers.copy_written(&mistaken);
        answer
    })
}

/// A monitor that takes what it is lent for something else, whatever then comes of it.
pub fn misjudging(mistake: impl Fn(&mut Buffers) + 'static) -> Monitor {
    Box::new(move |buffers| {
        let mut mistaken = buffers.clone();
        mistake(&mut mistaken);
        let answer = honest(&mut mistaken);
        buffers.copy_written(&mistaken);
        answer
    })
}

/// A monitor that takes what it is lent for something else, where only what it sends is then another.
pub fn missending(mistake: impl Fn(&mut Buffers) + 'static) -> Monitor {
    let mistaking = mistaking(mistake);
    Box::new(move |buffers| {
        let mut mistaken = buffers.clone();
        let wrong = mistaking(&mut mistaken);
        let right = honest(buffers);
        if wrong.steps != right.steps || mistaken.state.inside() != buffers.state.inside() {
            return right;
        }
        buffers.copy_written(&mistaken);
        wrong
    })
}

/// A monitor that also refuses by this number where this holds: asked only of what no number up to it refuses.
pub fn refusing(number: u32, refused: impl Fn(&Buffers) -> bool + 'static) -> Monitor {
    let place = |of| Refusal::LIST.iter().position(|(number, _)| *number == of);
    Box::new(move |buffers| {
        let mut kept = buffers.clone();
        let answer = honest(&mut kept);
        let passes = answer.number == 0 || place(answer.number) > place(number);
        if passes && refused(buffers) {
            return Answer {
                number,
                bytes: 0,
                steps: 0,
                missing: NONE_MISSING,
            };
        }
        buffers.copy_written(&kept);
        answer
    })
}

/// Where the record has this map, with or without cookies, takes its connection for one of another kind.
fn mistake_kind(buffers: &mut Buffers, of_map: u8, right: u8, wrong: u8) {
    let &[map, _, connection, ..] = buffers.record.inside() else {
        return;
    };
    let place = OPEN_AT + usize::from(connection);
    let Some(word) = buffers.state.inside_mut().get_mut(place) else {
        return;
    };
    let [kind, .., url] = word.to_be_bytes();
    if map & !COOKIES == of_map && kind == right {
        *word = u32::from_be_bytes([wrong, 0, 0, url]);
    }
}

/// Takes each of these steps of the scripts for an end.
fn mistake_steps(buffers: &mut Buffers, is_end: fn(&[u8]) -> bool) {
    let steps = buffers.scripts.inside_mut().chunks_exact_mut(STEP_BYTES);
    steps
        .filter(|step| is_end(step))
        .for_each(|step| step.fill(0));
}

pub fn assert_found(monitor: Monitor, what: &str) {
    let found = first_difference(monitor, CASES).expect("the fault is found");
    assert_eq!(format!("{}{}", found.part, found.what), what, "{found}");
}

#[test]
fn honest_monitors_are_passed() {
    for monitor in [honest, monitors::library] {
        assert_eq!(first_difference(Box::new(monitor), HONEST_CASES), None);
    }
}

#[test]
fn a_wrong_answer_is_found() {
    let writers_as_readers = answering(|answer| confused(answer, WRITERS_FORBID, READERS_FORBID));
    assert_found(writers_as_readers, "answer's number");
    let empty_as_cut = answering(|answer| confused(answer, KEY_MAP_EMPTY, CUT_OR_TOO_LONG));
    assert_found(empty_as_cut, "answer's number");
    let bytes = answering(|answer| Answer {
        bytes: answer.bytes.min(100),
        ..answer
    });
    assert_found(bytes, "answer's bytes");
    let steps = answering(|answer| Answer {
        steps: answer.steps.min(31),
        ..answer
    });
    assert_found(steps, "answer's steps");
}

#[test]
fn a_response_taken_on_another_kind_is_found() {
    let faults: [fn(&mut Buffers); 4] = [
        |buffers| mistake_kind(buffers, PICTURE_RESPONSE, DOCUMENT, PICTURE),
        |buffers| mistake_kind(buffers, PICTURE_RESPONSE, SCRIPT, PICTURE),
        |buffers| mistake_kind(buffers, DOCUMENT_RESPONSE, PICTURE, DOCUMENT),
        |buffers| mistake_kind(buffers, SCRIPT_RESPONSE, PICTURE, SCRIPT),
    ];
    for fault in faults {
        assert_found(mistaking(fault), "answer's number");
    }
}

/// A picture response taken for a document response whose script ends at once.
#[test]
fn a_script_on_a_picture_response_is_found() {
    let runs = mistaking(|buffers| {
        let awaited = pending(buffers).is_some_and(|held| held.kind == PICTURE);
        if let (true, &[PICTURE_RESPONSE, url, connection]) = (awaited, buffers.record.inside()) {
            mistake_kind(buffers, PICTURE_RESPONSE, PICTURE, DOCUMENT);
            mistake_steps(buffers, |_| true);
            let response = [DOCUMENT_RESPONSE, url, connection, 0];
            buffers.record.lay_bare(&response);
        }
    });
    assert_found(runs, "answer's steps");
}

#[test]
fn a_script_that_ends_at_a_picture_is_found() {
    let unknown = mistaking(|buffers| mistake_steps(buffers, |step| step[0] == 7));
    assert_found(unknown, "answer's bytes");
    let with_handler = mistaking(|buffers| {
        mistake_steps(buffers, |step| step[0] == 7 && step[3] > 15);
    });
    assert_found(with_handler, "answer's bytes");
}

#[test]
fn a_picture_redirected_as_a_document_is_found() {
    let request = spoiling(|answer, buffers| {
        let sent = &mut buffers.out.inside_mut()[..answer.bytes as usize];
        if let (Some(map), [0x23 | 0x27, ..]) = (sent.first_mut(), buffers.record.inside()) {
            *map &= !0x40;
        }
    });
    assert_found(request, "output");
    let kind = mistaking(|buffers| mistake_kind(buffers, REDIRECT, PICTURE, DOCUMENT));
    assert_found(kind, "state");
}

#[test]
fn one_bit_of_the_state_is_found() {
    let accepted = spoiling(|answer, buffers| {
        if answer.number == 0 {
            flip(buffers.state.inside_mut().last_mut());
        }
    });
    assert_found(accepted, "state");
    let refused = spoiling(|answer, buffers| {
        if answer.number == 4 {
            flip(buffers.state.inside_mut().first_mut());
        }
    });
    assert_found(refused, "state");
}

#[test]
fn a_touched_output_is_found() {
    let sent = spoiling(|answer, buffers| {
        flip(buffers.out.inside_mut()[..answer.bytes as usize].last_mut());
    });
    assert_found(sent, "output");
    let past = spoiling(|answer, buffers| {
        flip(buffers.out.inside_mut()[answer.bytes as usize..].last_mut());
    });
    assert_found(past, "output");
}

#[test]
fn a_touched_input_is_found() {
    let policy = spoiling(|_, buffers| flip(buffers.policy.inside_mut().first_mut()));
    assert_found(policy, "policy");
    let scripts = spoiling(|_, buffers| flip(buffers.scripts.inside_mut().last_mut()));
    assert_found(scripts, "script table");
    let record = spoiling(|_, buffers| flip(buffers.record.inside_mut().last_mut()));
    assert_found(record, "record");
}

#[test]
fn a_broken_guard_is_found() {
    let faults: [(Spoil, &str); 10] = [
        (|_, b| b.policy.flip_before(), "guard before the policy"),
        (|_, b| b.policy.flip_behind(), "guard behind the policy"),
        (
            |_, b| b.scripts.flip_before(),
            "guard before the script table",
        ),
        (
            |_, b| b.scripts.flip_behind(),
            "guard behind the script table",
        ),
        (|_, b| b.state.flip_before(), "guard before the state"),
        (|_, b| b.state.flip_behind(), "guard behind the state"),
        (|_, b| b.record.flip_before(), "guard before the record"),
        (|_, b| b.record.flip_behind(), "guard behind the record"),
        (|_, b| b.out.flip_before(), "guard before the output"),
        (|_, b| b.out.flip_behind(), "guard behind the output"),
    ];
    for (fault, what) in faults {
        assert_found(spoiling(fault), what);
    }
}
