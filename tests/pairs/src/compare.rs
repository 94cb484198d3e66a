//! Holds two runs to each other. What a rule says of two lists it says of their beginnings too, so the views are compared after each record
//! that remains, and at the end.

use std::fmt;

use cases::labels::{HOSTS, KEYS, OPEN_AT, PRESENT_AT};
use cases::record::Fields;

use crate::case::Case;
use crate::run::{Fed, EMPTY};
use crate::scope::Scope;

/// The records that are struck, up to one that remains, or up to the end.
pub struct Stretch<'a> {
    pub struck: &'a [Fed],
    pub remaining: Option<(&'a Fed, Fields)>,
    /// The states before and after.
    pub before: &'a [u32],
    pub after: &'a [u32],
}

impl<'a> Stretch<'a> {
    pub fn fed(&self) -> impl Iterator<Item = &'a Fed> {
        self.struck.iter().chain(self.remaining.map(|(fed, _)| fed))
    }

    pub fn requests(&self) -> impl Iterator<Item = &'a Fields> {
        self.fed().flat_map(|fed| &fed.requests)
    }

    fn view(&self, scope: &Scope) -> View {
        let requests = self.requests();
        View {
            requests: requests.filter_map(|of| scope.view_request(of)).collect(),
            state: scope.view_state(self.after),
        }
    }
}

/// A list cut behind each record that remains.
fn stretches<'a>(scope: &Scope, list: &'a [Fed]) -> Vec<Stretch<'a>> {
    let mut stretches = Vec::new();
    let (mut start, mut before) = (0, &EMPTY[..]);
    for (place, fed) in list.iter().enumerate() {
        if let Ok(remains) = scope.remains(&fed.record) {
            stretches.push(Stretch {
                struck: &list[start..place],
                remaining: Some((fed, remains)),
                before,
                after: &fed.state,
            });
            (start, before) = (place + 1, &fed.state);
        }
    }
    stretches.push(Stretch {
        struck: &list[start..],
        remaining: None,
        before,
        after: list.last().map_or(&EMPTY, |fed| &fed.state),
    });
    stretches
}

/// What is compared of a stretch.
#[derive(PartialEq, Eq)]
struct View {
    requests: Vec<Fields>,
    state: Vec<u32>,
}

/// Where two views differ first.
#[derive(Debug)]
pub struct Difference {
    /// How many records remain up to there.
    remaining: usize,
    what: String,
}

impl fmt::Display for Difference {
    fn fmt(&self, to: &mut fmt::Formatter<'_>) -> fmt::Result {
        let Difference { remaining, what } = self;
        write!(to, "after {remaining} records that remain: {what}")
    }
}

/// The stretches of both lists, side by side. That the same remains of both is the test's own affair: where it does not, the test is wrong.
pub fn side_by_side(case: &Case) -> Vec<[Stretch<'_>; 2]> {
    let lists = case.lists.each_ref();
    let [first, second] = lists.map(|list| stretches(&case.scope, list));
    assert_eq!(first.len(), second.len(), "as many records remain");
    let pairs: Vec<_> = first.into_iter().zip(second).map(<[_; 2]>::from).collect();
    for pair in &pairs {
        let [first, second] = pair.each_ref().map(|of| of.remaining.map(|(_, of)| of));
        assert_eq!(first, second, "the same remains");
    }
    pairs
}

pub fn compare(scope: &Scope, pairs: &[[Stretch; 2]]) -> Result<(), Difference> {
    for (place, pair) in pairs.iter().enumerate() {
        let views = pair.each_ref().map(|stretch| stretch.view(scope));
        let remaining = place + usize::from(pair[0].remaining.is_some());
        if let Some(what) = difference(&views) {
            return Err(Difference { remaining, what });
        }
    }
    Ok(())
}

fn difference([first, second]: &[View; 2]) -> Option<String> {
    if first == second {
        return None;
    }
    let mut pairs = first.requests.iter().zip(&second.requests);
    if let Some(place) = pairs.position(|(a, b)| a != b) {
        let pair = [&first.requests[place], &second.requests[place]];
        return Some(format!("request {place}: {}", request_difference(pair)));
    }
    let counts = [first, second].map(|view| view.requests.len());
    if counts[0] != counts[1] {
        return Some(format!("requests: {} and {}", counts[0], counts[1]));
    }
    let mut words = first.state.iter().zip(&second.state);
    let place = words.position(|(a, b)| a != b)?;
    let [a, b] = [first.state[place], second.state[place]];
    Some(format!("{}: {a:#x} and {b:#x}", word_name(place)))
}

fn request_difference([a, b]: [&Fields; 2]) -> String {
    let fields = [
        ("map", a.map, b.map),
        ("URL", a.url, b.url),
        ("connection", a.connection, b.connection),
        ("handler", a.script, b.script),
        ("key map", a.keys, b.keys),
    ];
    match fields.into_iter().find(|(_, a, b)| a != b) {
        Some((name, a, b)) => format!("{name}: {a:#x} and {b:#x}"),
        None => format!("values of cookies: {:x?} and {:x?}", a.values, b.values),
    }
}

/// What a word of a state is.
fn word_name(place: usize) -> String {
    match place {
        OPEN_AT.. => format!("connection {}", place - OPEN_AT),
        PRESENT_AT.. => format!("keys of host {}", place - PRESENT_AT),
        _ => format!("cookie {} of host {}", place % KEYS, place / KEYS % HOSTS),
    }
}
