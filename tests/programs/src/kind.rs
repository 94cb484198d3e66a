//! Kinds of inputs.

use cases::Random;

use crate::Input;

pub trait Kind: Copy + PartialEq + 'static {
    /// Every kind, as they are told at the end.
    const ALL: &'static [Self];
    /// The kinds in the order of the cases, over and over.
    const ORDER: &'static [Self];
    /// After so many cases every kind has occurred.
    const CYCLE: u64 = Self::ORDER.len() as u64;

    type Input: Input;

    fn name(self) -> &'static str;

    /// The inputs of a case.
    fn inputs(self, random: &Random) -> Vec<Self::Input>;

    fn of_case(case: u64) -> Self {
        Self::ORDER[(case % Self::CYCLE) as usize]
    }
}

#[cfg(test)]
mod tests {
    use super::*;

    /// Letters stand for kinds in the tests.
    impl Kind for char {
        const ALL: &'static [char] = &['a', 'b', 'c'];
        const ORDER: &'static [char] = &['a', 'c', 'b', 'a'];

        type Input = Vec<u8>;

        fn name(self) -> &'static str {
            "a letter"
        }

        fn inputs(self, _: &Random) -> Vec<Vec<u8>> {
            vec![vec![self as u8]]
        }
    }

    #[test]
    fn cases_go_through_the_kinds_in_their_order() {
        let kinds: String = (0..6).map(char::of_case).collect();
        assert_eq!(kinds, "acbaac");
    }
}
