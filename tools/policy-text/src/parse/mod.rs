//! Reads a text: first for its names, then line by line for what it says.

mod clauses;
mod cursor;
mod declarations;
mod draft;
mod reader;
mod records;
mod sets;
mod steps;
#[cfg(test)]
mod tests;

use crate::diagnostic::Diagnostic;
use crate::errors::Errors;
use crate::kind::Kind;
use crate::lex::Token;
use crate::nearest::nearest;
use crate::plan::Plan;
use crate::resolve::Tables;
use cursor::Cursor;
pub(crate) use declarations::Header;

/// The most bytes of a text: 4 MiB.
pub const TEXT_BYTES: usize = 4 << 20;

/// Reads a text of any bytes.
///
/// # Errors
///
/// All that is wrong, in the order of the text: at most 20 errors, and after them how many more there are. Where a name's declaration has an error,
/// its uses have none.
pub fn parse(text: &[u8]) -> Result<Plan, Vec<Diagnostic>> {
    if text.len() > TEXT_BYTES {
        let message = format!("the file has more than {TEXT_BYTES} bytes, 4 MiB");
        return Err(vec![Diagnostic::of_the_whole(message)]);
    }
    let known = declared(text);
    reader::read(text, known)
}

/// What a text declares. What is wrong with it is told in the second pass.
fn declared(text: &[u8]) -> Tables<'_> {
    let mut cursor = Cursor::new(text, Errors::silent(text));
    let mut tables = Tables::default();
    while cursor.begin_line().is_some() {
        if let Some(kind) = begun(&cursor) {
            let mut header = declarations::header(&mut cursor, kind.it);
            header.is_whole &= !kind.is_guess;
            tables.declare(&header, &mut cursor.errors);
        }
        cursor.skip_line();
    }
    tables
}

/// A declaration that begins at a line.
struct Begun {
    it: Kind,
    /// The word is not right, but near: what it declares is not told as unknown.
    is_guess: bool,
}

fn begun(cursor: &Cursor<'_>) -> Option<Begun> {
    let Token::Word(word) = cursor.current.token else {
        return None;
    };
    let is_step = cursor.following.token == Token::Equals;
    let is_script_readers = word == "script" && cursor.following.token == Token::Word("readers");
    if is_step || is_script_readers {
        return None;
    }
    let kind_of = |word: &str| Kind::ALL.into_iter().find(|kind| kind.word() == word);
    if let Some(it) = kind_of(word) {
        let is_guess = false;
        return Some(Begun { it, is_guess });
    }
    let it = kind_of(line_word_near(word)?)?;
    let is_guess = true;
    Some(Begun { it, is_guess })
}

/// The word that begins a line and is nearest to one that does not.
fn line_word_near(word: &str) -> Option<&'static str> {
    use crate::words::{begins_a_line, LINE_WORDS};
    if begins_a_line(word) {
        return None;
    }
    nearest(word, LINE_WORDS.iter().copied())
}
