//! One case again, with all that was lent and all that came of it in hexadecimal.

use cases::hex::{print_bytes, print_words};
use cases::Call;

use crate::case::play;
use crate::checker::Checker;
use crate::difference::Outcome;
use crate::monitors;

/// Prints one call of a case, or every one, and says whether all monitors agreed.
pub fn replay(seed: u64, case: u64, only: Option<u64>) -> bool {
    let mut checker = Checker::new(Box::new(monitors::library));
    let played = play(seed, case, |index, call, random| {
        if only.is_some_and(|only| only != index) {
            return checker.check(call, random);
        }
        print_lent(index, call);
        let checked = checker.check(call, random);
        checker.outcomes().into_iter().for_each(print_outcome);
        checked
    });
    match played {
        Ok(played) => {
            println!("no difference in {} calls", played.calls);
            true
        }
        Err(failure) => {
            println!("call {}: {}", failure.call, failure.error);
            false
        }
    }
}

fn print_lent(index: u64, call: &Call) {
    println!("call {index}");
    print_words("policy", &call.policy);
    print_bytes("scripts", &call.scripts);
    print_words("state", &call.state);
    print_bytes("record", &call.record);
    print_bytes("output before", &call.out);
}

fn print_outcome(outcome: &Outcome) {
    let Outcome {
        monitor,
        answer,
        buffers,
    } = outcome;
    println!(
        "{}: number {:x}, bytes {:x}, steps {:x}, missing {:x}",
        monitor.0, answer.number, answer.bytes, answer.steps, answer.missing
    );
    print_words("state after", buffers.state.inside());
    print_bytes("output after", buffers.out.inside());
}
