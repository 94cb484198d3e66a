//! What is told of a text.

use crate::span::Span;

/// How much something matters.
#[derive(Clone, Copy, Debug, PartialEq, Eq, Hash)]
pub enum Level {
    /// The text cannot be used.
    Error,
    /// It can be used, and may not say what was meant.
    Advice,
}

/// One thing that is told of a text.
#[derive(Clone, Debug, PartialEq, Eq)]
pub struct Diagnostic {
    /// Whether it is an error.
    pub level: Level,
    /// What is wrong, in a line.
    pub message: String,
    /// Where; none where it is of the text as a whole.
    pub span: Option<Span>,
    /// What stands under the line, beside the place.
    pub label: String,
    /// What may help.
    pub notes: Vec<String>,
    /// How many things it tells: more than one where the rest of many is told in a line.
    pub count: usize,
}

impl Diagnostic {
    pub(crate) fn error(message: String, span: Span, label: impl Into<String>) -> Diagnostic {
        Diagnostic {
            level: Level::Error,
            message,
            span: Some(span),
            label: label.into(),
            notes: Vec::new(),
            count: 1,
        }
    }

    pub(crate) fn of_the_whole(message: String) -> Diagnostic {
        Diagnostic {
            level: Level::Error,
            message,
            span: None,
            label: String::new(),
            notes: Vec::new(),
            count: 1,
        }
    }

    pub(crate) fn note(mut self, note: impl Into<String>) -> Diagnostic {
        self.notes.push(note.into());
        self
    }

    pub(crate) fn notes(mut self, notes: impl IntoIterator<Item = String>) -> Diagnostic {
        self.notes.extend(notes);
        self
    }
}
