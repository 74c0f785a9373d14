//! Records: what stands in a text, in its order.

use std::str;

use crate::decimal::Decimal;

/// Where a byte stands in a text.
#[derive(Debug, Clone, Copy, PartialEq, Eq, Hash)]
pub struct Place {
    /// The bytes before it.
    pub offset: u64,
    /// Its line, from 1.
    pub line: u64,
    /// Its column in bytes, from 1.
    pub column: u64,
}

/// What a record is.
#[derive(Debug, Clone, Copy, PartialEq, Eq, Hash, PartialOrd, Ord)]
#[non_exhaustive]
pub enum Kind {
    /// `data_` and the block's name.
    Block = 1,
    /// `save_` and the frame's name.
    FrameOpen = 2,
    /// The `save_` that closes a frame.
    FrameClose = 3,
    /// A tag; its value is the next record.
    Tag = 4,
    /// `loop_`; its tags, its values row by row and its end follow.
    Loop = 5,
    /// A tag of a loop.
    LoopTag = 6,
    /// Where a loop's values end. No token of the text, so it has no place.
    LoopEnd = 7,
    /// The value `.`
    Inapplicable = 8,
    /// The value `?`
    Unknown = 9,
    /// A text without marks.
    Bare = 10,
    /// A text between `'` marks.
    SingleQuoted = 11,
    /// A text between `"` marks.
    DoubleQuoted = 12,
    /// A text of lines between `;` marks.
    Multiline = 13,
    /// A number.
    Number = 14,
    /// A number with its uncertainty in brackets.
    Uncertain = 15,
    /// A text between `'` or `"` marks, in the strict reading; its content begins with the opening mark.
    Quoted = 21,
}

impl Kind {
    /// All kinds, by their numbers.
    const ALL: [Kind; 16] = [
        Kind::Block,
        Kind::FrameOpen,
        Kind::FrameClose,
        Kind::Tag,
        Kind::Loop,
        Kind::LoopTag,
        Kind::LoopEnd,
        Kind::Inapplicable,
        Kind::Unknown,
        Kind::Bare,
        Kind::SingleQuoted,
        Kind::DoubleQuoted,
        Kind::Multiline,
        Kind::Number,
        Kind::Uncertain,
        Kind::Quoted,
    ];

    /// The kind's number in stores and outlines.
    pub fn number(self) -> u64 {
        self as u64
    }

    /// The kind of this number.
    pub fn of_number(number: u64) -> Option<Kind> {
        let before = match number {
            1..=15 => number - 1,
            21 => 15,
            _ => return None,
        };
        Kind::ALL.get(usize::try_from(before).ok()?).copied()
    }

    /// Whether it is the value of a tag, single or in a loop.
    pub fn is_value(self) -> bool {
        self >= Kind::Inapplicable
    }

    /// Whether it holds a name or a text.
    pub fn has_content(self) -> bool {
        match self {
            Kind::Block | Kind::FrameOpen | Kind::Tag | Kind::LoopTag => true,
            Kind::Bare | Kind::SingleQuoted | Kind::DoubleQuoted | Kind::Multiline => true,
            Kind::Quoted => true,
            Kind::FrameClose | Kind::Loop | Kind::LoopEnd | Kind::Inapplicable => false,
            Kind::Unknown | Kind::Number | Kind::Uncertain => false,
        }
    }
}

/// One record of a store.
#[derive(Debug, Clone, Copy, PartialEq, Eq, Hash)]
#[non_exhaustive]
pub struct Record<'a> {
    /// What it is.
    pub kind: Kind,
    /// Where its token begins; none for the end of a loop.
    pub place: Option<Place>,
    /// The bytes of its token, marks included.
    pub length: u64,
    /// The bytes that the area holds of it: the name without its mark, or the text without its marks,
    /// but that of [`Kind::Quoted`] with its opening mark. None for kinds without one.
    pub content: Option<&'a [u8]>,
    /// How many tags a loop has.
    pub tags: Option<u64>,
    /// The number, for the two kinds that are one.
    pub decimal: Option<Decimal>,
    /// The offset in the store of the record that follows.
    pub next: usize,
}

impl<'a> Record<'a> {
    /// The name or the text, without any mark, also of [`Kind::Quoted`]. What was read is plain ASCII,
    /// so none only where there is no content.
    pub fn text(&self) -> Option<&'a str> {
        let content = self.content?;
        let marks = usize::from(self.kind == Kind::Quoted);
        str::from_utf8(content.get(marks..).unwrap_or_default()).ok()
    }
}

#[cfg(test)]
mod tests {
    use super::*;

    #[test]
    fn kinds_and_numbers_go_both_ways() {
        for number in (1..=15).chain([21]) {
            assert_eq!(Kind::of_number(number).map(Kind::number), Some(number));
        }
        for number in [0, 16, 17, 18, 19, 20, 22, 255, u64::MAX] {
            assert_eq!(Kind::of_number(number), None);
        }
    }

    #[test]
    fn the_kinds_from_8_on_are_values() {
        for kind in Kind::ALL {
            assert_eq!(kind.is_value(), kind.number() >= 8);
        }
    }

    #[test]
    fn names_and_texts_have_content() {
        let with: Vec<u64> = Kind::ALL
            .into_iter()
            .filter(|kind| kind.has_content())
            .map(Kind::number)
            .collect();
        assert_eq!(with, [1, 2, 4, 6, 10, 11, 12, 13, 21]);
    }

    fn with_content(kind: Kind, content: &[u8]) -> Record<'_> {
        Record {
            kind,
            place: None,
            length: 0,
            content: Some(content),
            tags: None,
            decimal: None,
            next: 0,
        }
    }

    #[test]
    fn the_text_of_a_quoted_value_is_without_its_mark() {
        let text = |kind, content| with_content(kind, content).text();
        for (content, inside) in [
            (&b"'"[..], ""),
            (b"''", "'"),
            (b"\"a", "a"),
            (b"'a dog's life", "a dog's life"),
        ] {
            assert_eq!(text(Kind::Quoted, content), Some(inside));
        }
        assert_eq!(text(Kind::Bare, b"'a"), Some("'a"));
        assert_eq!(text(Kind::Multiline, b"a\n"), Some("a\n"));
        // No reading leaves the content of a quoted value empty; a damaged store may.
        assert_eq!(text(Kind::Quoted, b""), Some(""));
        assert_eq!(text(Kind::Quoted, b"'\xff"), None);
    }
}
