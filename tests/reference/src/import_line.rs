//! A Set-Cookie line taken apart, as section 5.2 of RFC 6265 says.

/// The pair of a line, and the attributes behind it.
#[derive(Debug, Clone, PartialEq, Eq)]
pub struct Line<'a> {
    /// What stands before the first semicolon, or all.
    pub pair: &'a [u8],
    /// What stands between semicolons, and behind the last.
    pub attributes: Vec<Attribute<'a>>,
}

/// A pair that has an equals sign.
#[derive(Debug, Clone, Copy, PartialEq, Eq)]
pub struct Pair<'a> {
    pub name: Part<'a>,
    pub value: Part<'a>,
}

/// An attribute; without an equals sign all of it is its name.
#[derive(Debug, Clone, Copy, PartialEq, Eq)]
pub struct Attribute<'a> {
    pub name: Part<'a>,
    /// What stands after its first equals sign, if it has one. No answer
    /// depends on it.
    pub value: Option<Part<'a>>,
}

/// Some bytes as they stand, and without the blanks at both ends.
#[derive(Debug, Clone, Copy, PartialEq, Eq)]
pub struct Part<'a> {
    pub whole: &'a [u8],
    pub trimmed: &'a [u8],
}

impl<'a> Line<'a> {
    pub fn read(text: &'a [u8]) -> Line<'a> {
        let (pair, mut unparsed) = cut(text, b';');
        let mut attributes = Vec::new();
        while let Some(rest) = unparsed {
            let (attribute, next) = cut(rest, b';');
            attributes.push(Attribute::read(attribute));
            unparsed = next;
        }
        Line { pair, attributes }
    }

    /// Whether an attribute is this one.
    pub fn has(&self, word: &[u8]) -> bool {
        self.attributes.iter().any(|attribute| attribute.is(word))
    }
}

impl<'a> Pair<'a> {
    /// `None` without an equals sign.
    pub fn read(pair: &'a [u8]) -> Option<Pair<'a>> {
        let (name, value) = cut(pair, b'=');
        Some(Pair {
            name: Part::of(name),
            value: Part::of(value?),
        })
    }
}

impl<'a> Attribute<'a> {
    fn read(attribute: &'a [u8]) -> Attribute<'a> {
        let (name, value) = cut(attribute, b'=');
        Attribute {
            name: Part::of(name),
            value: value.map(Part::of),
        }
    }

    /// Its name is this word, in any case of its letters.
    pub fn is(&self, word: &[u8]) -> bool {
        self.name.trimmed.eq_ignore_ascii_case(word)
    }
}

impl<'a> Part<'a> {
    fn of(whole: &'a [u8]) -> Part<'a> {
        Part {
            whole,
            trimmed: trim(whole),
        }
    }
}

/// What stands before the first such byte, or all, and what stands after it,
/// if there is one.
pub fn cut(text: &[u8], byte: u8) -> (&[u8], Option<&[u8]>) {
    match text.iter().position(|&other| other == byte) {
        Some(place) => (&text[..place], Some(&text[place + 1..])),
        None => (text, None),
    }
}

/// Takes spaces and tabs off both ends; no other byte is white space.
pub fn trim(mut text: &[u8]) -> &[u8] {
    while let [b' ' | b'\t', rest @ ..] = text {
        text = rest;
    }
    while let [rest @ .., b' ' | b'\t'] = text {
        text = rest;
    }
    text
}
