//! One case again: both lists, what remains of them, and what each run shows.

use cases::hex::{hex, print_bytes, print_words};
use cases::record::{Fields, COOKIES};

use crate::case::Case;
use crate::compare::{compare, side_by_side};
use crate::rule::Rule;
use crate::run::{library, Fed, EMPTY};
use crate::scope::Scope;

/// Prints a case and says whether the views are equal.
pub fn replay(rule: &dyn Rule, seed: u64, case: u64) -> bool {
    let case = Case::make(rule, &library, seed, case);
    println!("{}, set {:08x}", rule.name(), case.scope.set);
    print_words("policy", &case.policy);
    print_bytes("script table", &case.scripts);
    for (list, name) in case.lists.iter().zip(["first", "second"]) {
        println!("{name} list, {} records:", list.len());
        list.iter().for_each(|fed| print_fed(&case.scope, fed));
        let last = list.last().map_or(&EMPTY[..], |fed| &fed.state);
        print_words("state after", last);
        print_words("what is compared of it", &case.scope.view_state(last));
    }
    match compare(&case.scope, &side_by_side(&case)) {
        Ok(()) => {
            println!("no difference");
            true
        }
        Err(difference) => {
            println!("DIFFERENCE {difference}");
            false
        }
    }
}

/// A record, what was answered, what remains of it, and its requests with what is compared of them.
fn print_fed(scope: &Scope, fed: &Fed) {
    let answer = match fed.number {
        0 => "accepted".to_string(),
        number => format!("refused by {number}"),
    };
    println!("  {}, {answer}", hex(&fed.record, 2, ""));
    match scope.remains(&fed.record) {
        Ok(remains) => println!("    remains {}", bytes(&remains)),
        Err(_) => println!("    struck"),
    }
    for request in &fed.requests {
        match scope.view_request(request) {
            Some(seen) => println!("    > {}, compared {}", bytes(request), bytes(&seen)),
            None => println!("    > {}", bytes(request)),
        }
    }
}

/// Its bytes, with the map that its cookies call for.
fn bytes(fields: &Fields) -> String {
    let mut fields = *fields;
    if fields.keys != 0 {
        fields.map |= COOKIES;
    }
    let mut record = Vec::new();
    fields.write(&mut record);
    hex(&record, 2, "")
}
