//! What is wrong with a file, and what is probably not meant.

use crate::advice;
use crate::file::SourceFile;
use crate::words::Words;

/// What is told of a file, whether the monitor takes it, and whether there is advice.
pub struct Checked {
    pub text: String,
    pub is_taken: bool,
    pub is_advised: bool,
}

pub fn check(file: &SourceFile) -> Checked {
    let (diagnostics, is_taken) = match file.sound() {
        Err(wrong) => (wrong, false),
        Ok(sound) => {
            let words = Words::new(&sound.policy, &sound.plan, &file.text);
            (advice::diagnostics(&words), true)
        }
    };
    Checked {
        text: file.told(&diagnostics),
        is_taken,
        is_advised: is_taken && !diagnostics.is_empty(),
    }
}
