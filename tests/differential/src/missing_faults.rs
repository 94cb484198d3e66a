//! Monitors that have a single fault about the endpoint that is missing: each is told from the reference.

use cases::labels::{Connection, Url, HOSTS, POLICY_WORDS, URLS};
use cases::record::{LOAD, REDIRECT};
use reference::layout::{ADDRESSES, NONE_MISSING};
use reference::numbers::{ACCEPTED, NOT_AWAITED, READERS_FORBID, WRITERS_FORBID};
use reference::Answer;
use zolherima::Refusal;

use crate::asked::{connection, map, partner_of, request_at};
use crate::buffers::Buffers;
use crate::checker::Monitor;
use crate::faults::{answering, assert_found, honest};

const WHAT: &str = "answer's missing";

/// A condition of a load or of a redirect, by its place in the order in which they are asked.
type Condition = (u8, usize);

const LOAD_READERS: Condition = (LOAD, 0);
const LOAD_MESSAGE: Condition = (LOAD, 1);
const EVENT: Condition = (REDIRECT, 0);
const READERS: Condition = (REDIRECT, 1);
const MESSAGE: Condition = (REDIRECT, 2);
const WRITERS: Condition = (REDIRECT, 3);

/// A load or a redirect of which labels can be asked.
#[derive(Clone, Copy)]
struct Asked {
    place: u8,
    own: Connection,
    /// The row that is named, and what is asked for in its place.
    named: Url,
    url: Url,
}

impl Asked {
    fn of(buffers: &Buffers) -> Option<Asked> {
        let policy = buffers.policy.inside();
        let row = buffers.record.inside()[request_at(buffers)?];
        let own = connection(buffers)?;
        if policy.len() != POLICY_WORDS || usize::from(row) >= URLS {
            return None;
        }
        let url = partner_of(buffers, row).unwrap_or(row);
        let asked = Asked {
            place: map(buffers),
            own: Connection::of(policy, own),
            named: Url::of(policy, row),
            url: Url::of(policy, url),
        };
        asked.url.exists().then_some(asked)
    }

    /// Of each condition its number and the endpoints that are missing, as a set.
    fn conditions(&self) -> Vec<(u32, u32)> {
        let Asked { own, url, .. } = self;
        let readers = (READERS_FORBID, own.readers & !url.readers);
        let message = (WRITERS_FORBID, url.message() & !own.writers);
        if self.place == LOAD {
            return vec![readers, message];
        }
        let event = (READERS_FORBID, url.event() & !own.readers);
        let writers = match url.is_entry() {
            true => 0,
            false => own.writers & !url.writers,
        };
        vec![event, readers, message, (WRITERS_FORBID, writers)]
    }

    /// What is missing in one of them.
    fn missing(&self, place: usize) -> u32 {
        self.conditions()[place].1
    }

    /// The first one that fails, by its place.
    fn first(&self) -> Option<usize> {
        let missing = |(_, missing): &(u32, u32)| *missing != 0;
        self.conditions().iter().position(missing)
    }

    /// The same of the row that is named, as if it were asked for.
    fn of_row(&self) -> Asked {
        Asked {
            url: self.named,
            ..*self
        }
    }
}

/// The lowest endpoint of a set, and that none is there where it is empty.
fn lowest(set: u32) -> u32 {
    set.trailing_zeros()
}

fn is_forbidden(answer: Answer) -> bool {
    [READERS_FORBID, WRITERS_FORBID].contains(&answer.number)
}

/// A monitor that tells another endpoint where such an answer is given to what labels can be asked of.
fn telling(
    is_such: impl Fn(Answer) -> bool + 'static,
    tell: impl Fn(&Asked) -> Option<u32> + 'static,
) -> Monitor {
    Box::new(move |buffers| {
        let asked = Asked::of(buffers);
        let answer = honest(buffers);
        let asked = asked.filter(|_| is_such(answer));
        let told = asked.and_then(|asked| tell(&asked));
        Answer {
            missing: told.unwrap_or(answer.missing),
            ..answer
        }
    })
}

/// A monitor that tells another endpoint where this condition is the first that fails.
fn telling_of(condition: Condition, tell: impl Fn(&Asked) -> u32 + 'static) -> Monitor {
    telling(is_forbidden, move |asked| {
        let is_first = (asked.place, asked.first()) == (condition.0, Some(condition.1));
        is_first.then(|| tell(asked))
    })
}

#[test]
fn the_highest_that_is_missing_is_found() {
    for condition in [LOAD_READERS, READERS, WRITERS] {
        let highest = telling_of(condition, move |asked| {
            let missing = asked.missing(condition.1);
            ADDRESSES - 1 - missing.leading_zeros()
        });
        assert_found(highest, WHAT);
    }
}

/// Conditions in the order in which they are asked.
const IN_TURN: [(Condition, Condition); 7] = [
    (LOAD_READERS, LOAD_MESSAGE),
    (EVENT, READERS),
    (EVENT, MESSAGE),
    (EVENT, WRITERS),
    (READERS, MESSAGE),
    (READERS, WRITERS),
    (MESSAGE, WRITERS),
];

#[test]
fn what_is_missing_in_a_later_condition_is_found() {
    for (first, later) in IN_TURN {
        let later_told = telling_of(first, move |asked| match asked.missing(later.1) {
            0 => lowest(asked.missing(first.1)),
            missing => lowest(missing),
        });
        assert_found(later_told, WHAT);
    }
}

/// The lowest of what is missing in either of two conditions. A message endpoint is never below the event endpoint of its URL.
#[test]
fn what_is_missing_in_either_condition_is_found() {
    for (first, later) in IN_TURN {
        if (first, later) == (EVENT, MESSAGE) {
            continue;
        }
        let either = telling_of(first, move |asked| {
            lowest(asked.missing(first.1) | asked.missing(later.1))
        });
        assert_found(either, WHAT);
    }
}

/// An entry is excused from the writers that it lacks, in what is told too.
#[test]
fn a_writer_that_is_told_of_an_entry_is_found() {
    let is_lacking = |asked: &Asked| asked.own.writers & !asked.url.writers;
    let refused = telling_of(MESSAGE, move |asked| {
        match (asked.url.is_entry(), is_lacking(asked)) {
            (false, _) | (_, 0) => lowest(asked.url.message()),
            (true, writers) => lowest(writers),
        }
    });
    assert_found(refused, WHAT);
    let is_accepted = |answer: Answer| answer.number == ACCEPTED;
    for place in [LOAD, REDIRECT] {
        let accepted = telling(is_accepted, move |asked| {
            (asked.place == place).then(|| lowest(is_lacking(asked)))
        });
        assert_found(accepted, WHAT);
    }
}

/// What is told where a condition is the first that fails.
type Telling = (Condition, fn(&Asked) -> u32);

/// The lowest of a set itself, of another set, or of what the other way round would be missing; the other endpoint of the URL.
#[test]
fn an_endpoint_of_another_set_is_found() {
    let faults: [Telling; 24] = [
        (LOAD_READERS, |asked| lowest(asked.own.readers)),
        (LOAD_READERS, |asked| lowest(asked.url.readers)),
        (LOAD_READERS, |asked| lowest(!asked.url.readers)),
        (LOAD_READERS, |asked| {
            lowest(asked.url.readers & !asked.own.readers)
        }),
        (LOAD_READERS, |asked| {
            lowest(asked.own.script_readers & !asked.url.readers)
        }),
        (LOAD_MESSAGE, |asked| lowest(asked.own.writers)),
        (LOAD_MESSAGE, |asked| lowest(asked.url.writers)),
        (LOAD_MESSAGE, |asked| lowest(!asked.own.writers)),
        (LOAD_MESSAGE, |asked| {
            lowest(asked.own.writers & !asked.url.writers)
        }),
        (LOAD_MESSAGE, |asked| lowest(asked.url.event())),
        (EVENT, |asked| lowest(asked.own.readers)),
        (EVENT, |asked| lowest(!asked.own.readers)),
        (EVENT, |asked| lowest(asked.url.message())),
        (READERS, |asked| lowest(asked.own.readers)),
        (READERS, |asked| lowest(!asked.url.readers)),
        (READERS, |asked| {
            lowest(asked.url.readers & !asked.own.readers)
        }),
        (READERS, |asked| {
            lowest(asked.own.script_readers & !asked.url.readers)
        }),
        (MESSAGE, |asked| lowest(asked.own.writers)),
        (MESSAGE, |asked| lowest(!asked.own.writers)),
        (MESSAGE, |asked| lowest(asked.url.event())),
        (WRITERS, |asked| lowest(asked.own.writers)),
        (WRITERS, |asked| lowest(!asked.url.writers)),
        (WRITERS, |asked| {
            lowest(asked.url.writers & !asked.own.writers)
        }),
        (WRITERS, |asked| {
            lowest(asked.own.readers & !asked.url.writers)
        }),
    ];
    for (condition, tell) in faults {
        assert_found(telling_of(condition, tell), WHAT);
    }
}

/// What the row that is named lacks by the same number. Its event endpoint is that of its partner.
#[test]
fn an_endpoint_of_the_row_that_is_named_is_found() {
    for condition in [LOAD_READERS, LOAD_MESSAGE, READERS, MESSAGE, WRITERS] {
        let before = telling_of(condition, move |asked| {
            let (number, missing) = asked.conditions()[condition.1];
            let row = asked.of_row().conditions().into_iter();
            let mut row = row.filter(|(of, missing)| *of == number && *missing != 0);
            lowest(row.next().map_or(missing, |(_, missing)| missing))
        });
        assert_found(before, WHAT);
    }
}

/// Endpoint 0 where none is missing: in an accepted record, and in each other refusal.
#[test]
fn an_endpoint_where_none_is_missing_is_found() {
    let refusals = Refusal::LIST.iter().map(|(number, _)| *number);
    let others = refusals.filter(|number| ![READERS_FORBID, WRITERS_FORBID].contains(number));
    for number in others.chain([ACCEPTED]) {
        let zero = answering(move |answer| match answer.number == number {
            true => Answer {
                missing: 0,
                ..answer
            },
            false => answer,
        });
        assert_found(zero, WHAT);
    }
    let is_not_awaited = |answer: Answer| answer.number == NOT_AWAITED;
    let judged_first = telling(is_not_awaited, |asked| {
        asked.first().map(|place| lowest(asked.missing(place)))
    });
    assert_found(judged_first, WHAT);
}

/// None, where this holds.
fn none_where(is_none: bool, missing: u32) -> u32 {
    match is_none {
        true => NONE_MISSING,
        false => missing,
    }
}

/// None at all; a bit for an endpoint, one counted from 1 or from above; its host alone, or the other scheme; endpoint 0, endpoint 31 or whatever is
/// https taken for none.
#[test]
fn an_endpoint_that_is_told_in_another_way_is_found() {
    let ways: [fn(u32) -> u32; 9] = [
        |_| NONE_MISSING,
        |missing| 1 << missing,
        |missing| missing + 1,
        |missing| ADDRESSES - 1 - missing,
        |missing| missing % HOSTS as u32,
        |missing| missing ^ HOSTS as u32,
        |missing| none_where(missing == 0, missing),
        |missing| none_where(missing == ADDRESSES - 1, missing),
        |missing| none_where(missing >= HOSTS as u32, missing),
    ];
    for number in [READERS_FORBID, WRITERS_FORBID] {
        for way in ways {
            let other = answering(move |answer| match answer.number == number {
                true => Answer {
                    missing: way(answer.missing),
                    ..answer
                },
                false => answer,
            });
            assert_found(other, WHAT);
        }
    }
}
