//! Refusals: their numbers, what comes with them, and a sentence for each in plain English.

use std::error::Error;
use std::fmt;

use crate::answer::Answer;
use crate::reason::Reason;
use crate::record::Place;

/// The numbers of answers.
pub mod number {
    /// Done: no refusal.
    pub const DONE: u64 = 0;
    /// The text, or the rendering, is over the limit.
    pub const TOO_LONG: u64 = 1;
    /// A byte is 128 or more.
    pub const NOT_ASCII: u64 = 2;
    /// No `data_` after leading space and comments.
    pub const NO_DATA: u64 = 3;
    /// A frame isn't closed.
    pub const OPEN_FRAME: u64 = 4;
    /// A loop's values don't fill whole rows.
    pub const RAGGED: u64 = 5;
    /// A tag has no valid value; the reason says why.
    pub const NO_VALUE: u64 = 6;
    /// An item is expected and none starts; directly behind a loop of the block the reason says why
    /// its values end there.
    pub const NO_ITEM: u64 = 7;
    /// A loop has no names.
    pub const NO_NAMES: u64 = 8;
    /// A number has too many digits.
    pub const OVER_LIMIT: u64 = 9;
    /// The store, or the list of a comparison, lacks room.
    pub const STORE_FULL: u64 = 10;
    /// The area, or the rendered text, lacks room.
    pub const AREA_FULL: u64 = 11;
    /// The store isn't sound, or is to be compared and has several blocks.
    pub const UNSOUND: u64 = 12;
    /// A name stands twice, in any letter case: a tag, or for a comparison also a frame's.
    pub const NAME_TWICE: u64 = 13;
    /// No such record, or it has no content.
    pub const NO_CONTENT: u64 = 14;
    /// No space stands between two tokens (strict reading).
    pub const NO_SPACE: u64 = 15;
    /// A line has more than 2,048 bytes before its end (strict reading).
    pub const LONG_LINE: u64 = 16;
    /// A name is empty or too long (strict reading).
    pub const NAME_LENGTH: u64 = 17;
    /// A control byte other than tab, LF and CR (strict reading).
    pub const CONTROL_BYTE: u64 = 18;
    /// The call's number names no reading. Nothing in this crate makes such a call.
    pub const NO_READING: u64 = 24;
}

/// Why a service did nothing.
#[derive(Debug, Clone, Copy, PartialEq, Eq, Hash)]
#[non_exhaustive]
pub struct Refusal {
    /// One of [`number`], never 0.
    pub number: u64,
    /// Where in the text, for 2 to 9 and 15 to 18.
    pub place: Option<Place>,
    /// For 13: the number of the name's first record, and of the record that repeats it.
    pub records: Option<(u64, u64)>,
    /// For 5 how many values are left over, for 6 and 7 the number of the [`Reason`], else 0.
    pub detail: u64,
    /// For 10 and 11: the two lengths needed.
    pub needed: Option<(usize, usize)>,
}

impl Refusal {
    /// The refusal that an answer with another number than 0 gives.
    pub(crate) fn of(answer: Answer) -> Refusal {
        let place = Place {
            offset: answer.offset,
            line: answer.line,
            column: answer.column,
        };
        Refusal {
            place: has_place(answer.number).then_some(place),
            records: (answer.number == number::NAME_TWICE).then_some((answer.offset, answer.line)),
            needed: matches!(answer.number, number::STORE_FULL | number::AREA_FULL)
                .then_some((answer.first_length as usize, answer.second_length as usize)),
            ..Refusal::bare(answer.number, answer.detail)
        }
    }

    /// A refusal that has no more than a number and a detail.
    pub(crate) fn bare(number: u64, detail: u64) -> Refusal {
        Refusal {
            number,
            place: None,
            records: None,
            detail,
            needed: None,
        }
    }

    /// Why no value stands where one is looked for: with every 6, and with a 7 directly behind a loop
    /// of the block itself.
    pub fn reason(&self) -> Option<Reason> {
        match self.number {
            number::NO_VALUE | number::NO_ITEM => Reason::of_number(self.detail),
            _ => None,
        }
    }

    /// What is wrong, in a sentence that needs no knowledge of this library.
    pub fn sentence(&self) -> String {
        match (self.number, self.reason()) {
            (number::RAGGED, _) => ragged(self.detail),
            (number::NO_ITEM, Some(reason)) => {
                format!("neither a further value of the loop nor a tag, a loop or a save frame stands here: {reason}")
            }
            (number, Some(reason)) => format!("{}: {reason}", fixed_sentence(number)),
            (number, None) => String::from(fixed_sentence(number)),
        }
    }
}

/// Whether a refusal of this number tells a place in the text.
fn has_place(number: u64) -> bool {
    matches!(
        number,
        number::NOT_ASCII..=number::OVER_LIMIT | number::NO_SPACE..=number::CONTROL_BYTE
    )
}

fn ragged(left_over: u64) -> String {
    let verb = if left_over == 1 { "is" } else { "are" };
    format!("the values of this loop do not fill whole rows: {left_over} {verb} left over")
}

fn fixed_sentence(number: u64) -> &'static str {
    match number {
        number::TOO_LONG => "the text is longer than 16,777,216 bytes, the most that is handled",
        number::NOT_ASCII => "this byte is not plain ASCII, as every byte of a CIF file is",
        number::NO_DATA => {
            "a CIF file begins with `data_` and a name, and something else stands here"
        }
        number::OPEN_FRAME => {
            "this save frame is not closed: where its items end, no closing `save_` stands"
        }
        number::NO_VALUE => "no value that can be read follows this tag",
        number::NO_ITEM => "a tag, a loop or a save frame is expected here",
        number::NO_NAMES => "no tags follow this `loop_`",
        number::OVER_LIMIT => {
            "this number has too many digits: at most 9 before the point, 18 behind it, \
             9 in the exponent and 9 in the brackets are kept exactly"
        }
        number::STORE_FULL => "the store has too little room",
        number::AREA_FULL => "the area, or the text to be written, has too little room",
        number::UNSOUND => {
            "the store is damaged, its area is not the one written with it, \
             or it was written in another reading"
        }
        number::NAME_TWICE => "the same tag stands twice",
        number::NO_CONTENT => "there is no such record, or it holds no name or text",
        number::NO_SPACE => {
            "the `;` before this closes a text field: put space or a line end behind it \
             (no line of such a field may begin with `;`)"
        }
        number::LONG_LINE => {
            "this line has more than 2,048 bytes, the most that CIF allows: break it between two values \
             (a long text goes into a text field of several lines, a long comment into several)"
        }
        number::NAME_LENGTH => {
            "this name is empty, or has more than the 75 bytes that CIF allows (a tag's `_` counts)"
        }
        number::CONTROL_BYTE => "a control character stands here, as in no CIF file: remove it",
        number::NO_READING => "no reading has this number",
        _ => "refused for a reason that this version does not know",
    }
}

impl fmt::Display for Refusal {
    fn fmt(&self, out: &mut fmt::Formatter<'_>) -> fmt::Result {
        write!(out, "refused {}", self.number)?;
        if let Some(place) = self.place {
            write!(out, " at line {}, column {}", place.line, place.column)?;
        }
        if let Some((first, second)) = self.records {
            write!(out, " at records {first} and {second}")?;
        }
        write!(out, ": {}", self.sentence())
    }
}

impl Error for Refusal {}

#[cfg(test)]
mod tests {
    use super::*;

    const DONE: Answer = Answer {
        number: 0,
        offset: 0,
        line: 0,
        column: 0,
        detail: 0,
        first_length: 0,
        second_length: 0,
    };

    #[test]
    fn a_refusal_of_a_text_has_a_place() {
        let refusal = Refusal::of(Answer {
            number: 5,
            offset: 7,
            line: 1,
            column: 8,
            detail: 2,
            ..DONE
        });
        assert_eq!(
            refusal.place,
            Some(Place {
                offset: 7,
                line: 1,
                column: 8
            })
        );
        assert_eq!((refusal.records, refusal.needed), (None, None));
        assert_eq!(
            refusal.to_string(),
            "refused 5 at line 1, column 8: the values of this loop do not fill whole rows: 2 are left over"
        );
    }

    #[test]
    fn refusals_of_a_text_have_places_and_no_others_have() {
        for number in 1..=30 {
            let answer = Answer {
                number,
                offset: 7,
                line: 1,
                column: 8,
                ..DONE
            };
            let expected = (2..=9).contains(&number) || (15..=18).contains(&number);
            assert_eq!(Refusal::of(answer).place.is_some(), expected, "{number}");
        }
    }

    #[test]
    fn a_repeated_name_has_two_records_and_no_place() {
        let refusal = Refusal::of(Answer {
            number: 13,
            offset: 1,
            line: 5,
            ..DONE
        });
        assert_eq!((refusal.place, refusal.records), (None, Some((1, 5))));
        assert_eq!(
            refusal.to_string(),
            "refused 13 at records 1 and 5: the same tag stands twice"
        );
    }

    #[test]
    fn no_room_tells_the_lengths_needed() {
        for number in [10, 11] {
            let answer = Answer {
                number,
                first_length: 183,
                second_length: 5,
                ..DONE
            };
            assert_eq!(Refusal::of(answer).needed, Some((183, 5)));
            assert_eq!(answer.needed(), Ok((183, 5)));
            assert_eq!(answer.result(), Err(Refusal::of(answer)));
        }
    }

    #[test]
    fn every_number_has_a_sentence_of_its_own() {
        // 19 stands for all that are not known.
        let mut sentences: Vec<String> = (1..=19)
            .chain([24])
            .map(|number| Refusal::bare(number, 0).sentence())
            .collect();
        sentences.sort();
        sentences.dedup();
        assert_eq!(sentences.len(), 20);
    }

    #[test]
    fn only_6_and_7_have_a_reason() {
        for detail in 0..=6 {
            let reason = Reason::of_number(detail);
            for number in (1..=18).chain([24]) {
                let expected = if number == 6 || number == 7 {
                    reason
                } else {
                    None
                };
                assert_eq!(Refusal::bare(number, detail).reason(), expected);
            }
        }
    }

    #[test]
    fn a_reason_is_said() {
        assert_eq!(
            Refusal::bare(6, 4).to_string(),
            "refused 6: no value that can be read follows this tag: \
             the quote that opens there is not closed on its line"
        );
        assert_eq!(
            Refusal::bare(7, 3).to_string(),
            "refused 7: neither a further value of the loop nor a tag, a loop or a save frame stands here: \
             no value starts with the byte there"
        );
        assert_eq!(
            Refusal::bare(7, 0).to_string(),
            "refused 7: a tag, a loop or a save frame is expected here"
        );
        for number in [6, 7] {
            let mut sentences: Vec<String> = (0..=5)
                .map(|detail| Refusal::bare(number, detail).sentence())
                .collect();
            sentences.sort();
            sentences.dedup();
            assert_eq!(sentences.len(), 6);
        }
    }

    /// 12 has three causes, and a long line can be broken where nothing else goes wrong.
    #[test]
    fn causes_and_cures_are_said() {
        assert_eq!(
            Refusal::bare(12, 0).to_string(),
            "refused 12: the store is damaged, its area is not the one written with it, \
             or it was written in another reading"
        );
        let long_line = Refusal::bare(16, 0).sentence();
        let cure =
            "break it between two values (a long text goes into a text field of several lines, \
                    a long comment into several)";
        assert!(long_line.ends_with(cure), "{long_line}");
    }

    #[test]
    fn one_value_left_over_is_told_in_the_singular() {
        assert!(Refusal::bare(5, 1)
            .sentence()
            .ends_with("rows: 1 is left over"));
    }
}
