//! Names and their numbers, of one kind: each has the number that it is given, or one more than the last.

use std::collections::HashMap;

use crate::span::{Clause, Span};

/// A name where it is used or declared.
#[derive(Clone, Copy, Debug)]
pub(crate) struct Mention<'t> {
    pub name: &'t str,
    pub span: Span,
}

/// What is known of a declared name.
#[derive(Clone, Copy, Debug)]
pub(crate) struct Declared {
    /// None where its declaration has an error, so that nothing follows from it.
    pub number: Option<u32>,
    pub span: Span,
}

/// Why a declaration gets no number.
#[derive(Clone, Copy, Debug)]
pub(crate) enum Clash<'t> {
    /// The name is declared there too.
    Name(Span),
    /// The number is that of another name.
    Number { number: u32, other: Mention<'t> },
    /// The numbers are used up.
    Full,
}

/// The names of one kind, as they are declared.
#[derive(Default)]
pub(crate) struct Roll<'t> {
    by_name: HashMap<&'t str, Declared>,
    by_number: HashMap<u32, Mention<'t>>,
    next: Next,
}

/// The number of the next declaration that is given none.
#[derive(Clone, Copy)]
enum Next {
    Number(u32),
    /// The last declaration had an error.
    Unclear,
}

impl Default for Next {
    fn default() -> Next {
        Next::Number(0)
    }
}

impl<'t> Roll<'t> {
    pub fn find(&self, name: &str) -> Option<Declared> {
        self.by_name.get(name).copied()
    }

    pub fn names(&self) -> impl Iterator<Item = &'t str> + '_ {
        self.by_name.keys().copied()
    }

    /// A declaration that has an error: its name is known if it was read, its number and the next are not.
    pub fn declare_broken(&mut self, name: Option<Mention<'t>>) {
        self.next = Next::Unclear;
        if let Some(Mention { name, span }) = name {
            let number = None;
            let broken = Declared { number, span };
            self.by_name.entry(name).or_insert(broken);
        }
    }

    /// Gives a name its number: none, without a clash, where it follows a declaration that has an error.
    pub fn declare(
        &mut self,
        it: Mention<'t>,
        given: Option<Clause<u32>>,
        most: usize,
    ) -> Result<Option<u32>, Clash<'t>> {
        match self.find(it.name) {
            Some(other) if other.number.is_some() => return Err(Clash::Name(other.span)),
            _ => self.by_name.remove(it.name),
        };
        let number = match (given, self.next) {
            (Some(given), _) => given.it,
            (None, Next::Number(number)) => number,
            (None, Next::Unclear) => {
                self.declare_broken(Some(it));
                return Ok(None);
            }
        };
        if let Some(clash) = self.clash(number, most) {
            self.declare_broken(Some(it));
            return Err(clash);
        }
        self.enter(it, number);
        Ok(Some(number))
    }

    fn clash(&self, number: u32, most: usize) -> Option<Clash<'t>> {
        if number as usize >= most {
            return Some(Clash::Full);
        }
        let other = *self.by_number.get(&number)?;
        Some(Clash::Number { number, other })
    }

    fn enter(&mut self, it: Mention<'t>, number: u32) {
        let declared = Declared {
            number: Some(number),
            span: it.span,
        };
        self.by_name.insert(it.name, declared);
        self.by_number.insert(number, it);
        self.next = Next::Number(number + 1);
    }
}

#[cfg(test)]
mod tests {
    use super::*;

    const HERE: Span = Span { start: 0, end: 0 };

    fn mention(name: &str) -> Mention<'_> {
        Mention { name, span: HERE }
    }

    fn given(it: u32) -> Option<Clause<u32>> {
        Some(Clause { it, span: HERE })
    }

    #[test]
    fn one_more_than_the_last() {
        let mut roll = Roll::default();
        let mut number = |name, given| roll.declare(mention(name), given, 4).ok().flatten();
        assert_eq!(number("a", None), Some(0));
        assert_eq!(number("b", given(2)), Some(2));
        assert_eq!(number("c", None), Some(3));
        assert_eq!(number("d", given(1)), Some(1));
        assert_eq!(number("e", None), None);
    }

    #[test]
    fn nothing_follows_from_an_error() {
        let mut roll = Roll::default();
        roll.declare_broken(Some(mention("a")));
        assert!(matches!(roll.declare(mention("b"), None, 4), Ok(None)));
        assert!(matches!(
            roll.declare(mention("a"), given(1), 4),
            Ok(Some(1))
        ));
        assert!(matches!(
            roll.declare(mention("a"), given(2), 4),
            Err(Clash::Name(_))
        ));
        assert!(matches!(
            roll.declare(mention("c"), given(1), 4),
            Err(Clash::Number { number: 1, .. })
        ));
    }
}
