//! The errors of a text: the first ones in its order, and how many there are.

use crate::diagnostic::Diagnostic;
use crate::span::{line_number, Span};

/// The most errors that are told.
const TOLD: usize = 20;

pub(crate) struct Errors<'t> {
    text: &'t [u8],
    told: Vec<Diagnostic>,
    more: usize,
    is_silent: bool,
}

impl<'t> Errors<'t> {
    pub fn new(text: &'t [u8]) -> Errors<'t> {
        Errors {
            text,
            told: Vec::new(),
            more: 0,
            is_silent: false,
        }
    }

    /// Errors that another pass over the text will tell.
    pub fn silent(text: &'t [u8]) -> Errors<'t> {
        Errors {
            is_silent: true,
            ..Errors::new(text)
        }
    }

    /// What is told is made only where it will be told, so that many errors take no longer than many words.
    pub fn report(&mut self, span: Span, make: impl FnOnce(&[u8]) -> Diagnostic) {
        if self.is_silent {
            return;
        }
        let starts_after = |told: &Diagnostic| told.span.is_some_and(|its| its.start > span.start);
        let place = self.told.partition_point(|told| !starts_after(told));
        if place < TOLD {
            self.told.insert(place, make(self.text));
        }
        if place == TOLD || self.told.len() > TOLD {
            self.told.truncate(TOLD);
            self.more += 1;
        }
    }

    /// A note that names the line of another place.
    pub fn line(text: &[u8], span: Span) -> String {
        format!("line {}", line_number(text, span.start))
    }

    /// All that is told; empty where there is no error.
    pub fn told(mut self) -> Vec<Diagnostic> {
        let more = match self.more {
            0 => return self.told,
            1 => "and 1 more error".to_string(),
            more => format!("and {more} more errors"),
        };
        let rest = Diagnostic {
            count: self.more,
            ..Diagnostic::of_the_whole(more)
        };
        self.told.push(rest);
        self.told
    }
}

#[cfg(test)]
mod tests {
    use super::*;

    #[test]
    fn the_first_in_the_text_are_told() {
        let mut errors = Errors::new(b"");
        for start in (0..100).rev() {
            let span = Span { start, end: start };
            errors.report(span, |_| Diagnostic::error(start.to_string(), span, ""));
        }
        let told: Vec<_> = errors.told().into_iter().map(|it| it.message).collect();
        let mut expected: Vec<_> = (0..20).map(|start| start.to_string()).collect();
        expected.push("and 80 more errors".to_string());
        assert_eq!(told, expected);
    }
}
