//! What a test gives to what it tests.

use std::borrow::Cow;

/// The parts of an input, each with its name.
pub type Parts<'a> = Vec<(&'static str, Cow<'a, [u8]>)>;

pub trait Input {
    /// What it is made of: so it is saved to be looked at.
    fn parts(&self) -> Parts<'_>;

    /// How many bytes it has in all.
    fn length(&self) -> usize {
        self.parts().iter().map(|(_, bytes)| bytes.len()).sum()
    }
}

/// What a program reads from standard input, where it is given nothing else.
impl Input for Vec<u8> {
    fn parts(&self) -> Parts<'_> {
        vec![("input", self.into())]
    }
}
