//! What each check is given beside its input, and what it gives back.

use std::any::Any;

use zolherima_program::failure::Failure;
use zolherima_program::file::{Sound, SourceFile};

use crate::front::Front;
use crate::given::Walk;
use crate::outside::Outside;
use crate::seen::Seen;
use crate::{advice, hostile, import, journey, outside, reach, round_trip, session, tally, words};

/// Nothing, or what differs.
pub type Verdict = Result<(), String>;

pub struct Context<'a> {
    pub front: &'a dyn Front,
    pub seen: &'a mut Seen,
    /// The programs, where this input is for them too.
    pub outside: Option<&'a Outside>,
}

/// All that must have occurred at the end.
pub fn events(is_outside: bool) -> Vec<&'static str> {
    let inside = [
        words::EVENTS,
        round_trip::EVENTS,
        session::EVENTS,
        advice::EVENTS,
        reach::EVENTS,
        journey::EVENTS,
        tally::EVENTS,
        import::EVENTS,
        hostile::EVENTS,
    ];
    let outside = is_outside.then_some(outside::EVENTS);
    inside
        .into_iter()
        .chain(outside)
        .flatten()
        .copied()
        .collect()
}

impl Context<'_> {
    /// The text of what walk reads, under a policy that is well formed, and what it makes.
    pub fn shown(&self, walk: &Walk) -> Result<(SourceFile, Sound), String> {
        let text = self.front.show(&walk.bytes()).map_err(failed)?;
        sound(text.into_bytes())
    }
}

pub fn file(text: Vec<u8>) -> SourceFile {
    let name = "standard input".to_string();
    SourceFile { name, text }
}

/// Of a text that has no error.
pub fn sound(text: Vec<u8>) -> Result<(SourceFile, Sound), String> {
    let file = file(text);
    let sound = file.sound().map_err(|wrong| {
        let told = file.told(&wrong);
        format!("a text that should be taken is not:\n{told}")
    })?;
    Ok((file, sound))
}

pub fn failed(failure: Failure) -> String {
    format!("this should not fail: {}", failure.message())
}

/// Two things that should be the same.
pub fn same<T: PartialEq + std::fmt::Debug>(what: &str, expected: &T, found: &T) -> Verdict {
    match expected == found {
        true => Ok(()),
        false => Err(format!("{what}: expected {expected:?}, found {found:?}")),
    }
}

/// What a panic said.
pub fn panicked(panic: &(dyn Any + Send)) -> String {
    let text = panic.downcast_ref::<String>().map(String::as_str);
    let text = text.or(panic.downcast_ref::<&str>().copied());
    format!("a panic: {}", text.unwrap_or("without words"))
}
