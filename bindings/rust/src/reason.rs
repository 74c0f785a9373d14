//! Reasons: why no value stands where one is looked for.

use std::fmt;

/// Why no value stands where one is looked for: behind a tag that is refused by 6, or at the end of the
/// values of a loop, where what stands directly behind them is refused by 7.
#[derive(Debug, Clone, Copy, PartialEq, Eq, Hash)]
#[non_exhaustive]
pub enum Reason {
    /// The text ends there. Never the reason of a 7.
    TextEnds = 1,
    /// The word there begins with `data_`, `global_`, `loop_`, `save_` or `stop_`, in any letter case. In
    /// the strict reading a longer word than `global_`, `loop_` or `stop_` is a value like others.
    ReservedWord = 2,
    /// The byte there starts no value: `_`, `$`, `[`, `]` or a control character.
    StartsNoValue = 3,
    /// A `'` or `"` stands there, and none closes the quote on its line. In the strict reading a mark
    /// closes it only before space, a line end or the text's end.
    OpenQuote = 4,
    /// A `;` stands there, and none at the start of a line closes the text field.
    OpenField = 5,
}

impl Reason {
    /// All reasons, by their numbers.
    const ALL: [Reason; 5] = [
        Reason::TextEnds,
        Reason::ReservedWord,
        Reason::StartsNoValue,
        Reason::OpenQuote,
        Reason::OpenField,
    ];

    /// The reason's number in the detail of an answer.
    pub fn number(self) -> u64 {
        self as u64
    }

    /// The reason of this number.
    pub fn of_number(number: u64) -> Option<Reason> {
        let before = usize::try_from(number.checked_sub(1)?).ok()?;
        Reason::ALL.get(before).copied()
    }
}

impl fmt::Display for Reason {
    fn fmt(&self, out: &mut fmt::Formatter<'_>) -> fmt::Result {
        out.write_str(match self {
            Reason::TextEnds => "the text ends there",
            Reason::ReservedWord => "the word there begins with a reserved one",
            Reason::StartsNoValue => "no value starts with the byte there",
            Reason::OpenQuote => "the quote that opens there is not closed on its line",
            Reason::OpenField => {
                "the text field that opens there has no closing `;` at the start of a line"
            }
        })
    }
}

#[cfg(test)]
mod tests {
    use super::*;

    #[test]
    fn reasons_and_numbers_go_both_ways() {
        for number in 1..=5 {
            assert_eq!(Reason::of_number(number).map(Reason::number), Some(number));
        }
        for number in [0, 6, 255, u64::MAX] {
            assert_eq!(Reason::of_number(number), None);
        }
    }

    #[test]
    fn the_numbers_are_document_02s() {
        assert_eq!(Reason::TextEnds.number(), 1);
        assert_eq!(Reason::ReservedWord.number(), 2);
        assert_eq!(Reason::StartsNoValue.number(), 3);
        assert_eq!(Reason::OpenQuote.number(), 4);
        assert_eq!(Reason::OpenField.number(), 5);
    }
}
