//! Places in a text.

/// Bytes `start` to `end` of a text, the last not included.
#[derive(Clone, Copy, Debug, Default, PartialEq, Eq, Hash)]
pub struct Span {
    /// The first byte.
    pub start: usize,
    /// The byte after the last.
    pub end: usize,
}

impl Span {
    /// From the start of this span to the end of another.
    pub(crate) const fn to(self, last: Span) -> Span {
        Span {
            start: self.start,
            end: last.end,
        }
    }
}

/// What a clause says, and where it stands.
#[derive(Clone, Copy, Debug, PartialEq, Eq)]
pub struct Clause<T> {
    /// What it says.
    pub it: T,
    /// The whole clause, from its first word to its last.
    pub span: Span,
}

const BYTE_ORDER_MARK: &[u8] = b"\xef\xbb\xbf";

/// Where a text begins: after the mark that some editors put in front.
pub(crate) fn beginning(text: &[u8]) -> usize {
    if text.starts_with(BYTE_ORDER_MARK) {
        BYTE_ORDER_MARK.len()
    } else {
        0
    }
}

/// The number of the line that has a byte, from 1 on.
pub(crate) fn line_number(text: &[u8], place: usize) -> usize {
    let before = &text[..place.min(text.len())];
    1 + before.iter().filter(|byte| **byte == b'\n').count()
}

#[cfg(test)]
mod tests {
    use super::*;

    #[test]
    fn lines_count_from_one_and_a_line_has_its_newline() {
        let text = b"a\nb\n";
        let lines = [0, 1, 2, 3, 4, 9].map(|place| line_number(text, place));
        assert_eq!(lines, [1, 1, 2, 2, 3, 3]);
    }
}
