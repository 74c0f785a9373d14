//! The services over lent slices. Each says what the header says of the function of its name. A store
//! goes with the reading that it was written in: in another one it may be refused by 12.

use crate::answer::Answer;
use crate::decimal::Decimal;
use crate::foreign::{self, Walked};
use crate::reading::Reading;
use crate::record::{Kind, Place, Record};
use crate::refusal::{number, Refusal};

/// Reads a text: records to the store, contents to the area.
///
/// Refuses by 1 to 11, and in the strict reading by 15 to 18 as well. A refusal writes nothing, success
/// only the bytes counted; exactly enough room is room. With empty buffers the answer tells the room
/// needed ([`Answer::needed`]).
pub fn read(reading: Reading, text: &[u8], store: &mut [u8], area: &mut [u8]) -> Answer {
    foreign::read(reading.number(), text, store, area)
}

/// Reads a text: kinds and places alone, 17 bytes for each record and 1 for the end of a loop.
///
/// Refuses as [`read`] does, but never by 11. A refusal writes nothing, success only the bytes
/// counted. Such a store is no store of [`read`]: [`render`], [`names`] and [`content`] refuse it.
pub fn outline(reading: Reading, text: &[u8], store: &mut [u8]) -> Answer {
    foreign::outline(reading.number(), text, store)
}

/// Writes a text that reads as the same records in this reading, each token on lines of its own.
///
/// Refuses by 12, 1 and 11. A refusal writes nothing, success only the bytes counted.
pub fn render(reading: Reading, store: &[u8], area: &[u8], out: &mut [u8]) -> Answer {
    foreign::render(reading.number(), store, area, out)
}

/// Whether names stand once among each block's own tags, and among those of each frame. Letter case
/// makes no difference: A to Z are taken as a to z, and every other byte as it is.
///
/// Refuses by 12 and 13.
pub fn names(reading: Reading, store: &[u8], area: &[u8]) -> Answer {
    foreign::names(reading.number(), store, area)
}

/// What changed from an old store with its area to a new one, each of one block: an entry of
/// [`ENTRY_LENGTH`] bytes for each value that only one of them has or that differs.
///
/// An entry is the number of its [`Case`](crate::Case), then that of the old record and that of the new
/// one, 8 bytes each, the lowest first, and 0 where there is none. Those with an old record come first,
/// in its order.
///
/// Refuses by 12, also for several blocks, 13, and 10 where the list lacks room; 12 and 13 don't tell
/// which store is meant. A refusal writes nothing, success only the bytes counted.
pub fn compare(
    reading: Reading,
    old: (&[u8], &[u8]),
    new: (&[u8], &[u8]),
    list: &mut [u8],
) -> Answer {
    foreign::compare(reading.number(), old, new, list)
}

/// The bytes of one entry of [`compare`].
pub const ENTRY_LENGTH: usize = 17;

/// The content of the record of this number, counted from 0. That of a quoted value of the strict
/// reading begins with its opening mark.
///
/// Refuses by 12 and 14. It looks at the whole store; to see every content, walk the records.
pub fn content<'a>(
    reading: Reading,
    store: &[u8],
    area: &'a [u8],
    record: u64,
) -> Result<&'a [u8], Refusal> {
    foreign::content(reading.number(), store, area, record).result()?;
    let part = foreign::content_part(reading.number(), store, area, record);
    part_of(area, part.start, part.length).ok_or_else(no_content)
}

/// The record at this byte offset of the store; the first is at 0, each says where the next one is.
///
/// Refuses by 14 where no whole record starts there, as at the store's end. It looks at that record
/// alone, and so says nothing about the rest of the store. The kinds of all readings are records to it,
/// so that its answer is the same in each.
pub fn record_at<'a>(
    reading: Reading,
    store: &[u8],
    area: &'a [u8],
    at: usize,
) -> Result<Record<'a>, Refusal> {
    let walked = foreign::record_at(reading.number(), store, area, at as u64);
    if walked.number != number::DONE {
        return Err(Refusal::bare(walked.number, 0));
    }
    record(&walked, area).ok_or_else(no_content)
}

fn no_content() -> Refusal {
    Refusal::bare(number::NO_CONTENT, 0)
}

fn part_of(area: &[u8], start: u64, length: u64) -> Option<&[u8]> {
    let end = start.checked_add(length)?;
    area.get(usize::try_from(start).ok()?..usize::try_from(end).ok()?)
}

fn record<'a>(walked: &Walked, area: &'a [u8]) -> Option<Record<'a>> {
    let kind = Kind::of_number(walked.kind)?;
    let content = match kind.has_content() {
        true => Some(part_of(area, walked.start, walked.content)?),
        false => None,
    };
    let place = Place {
        offset: walked.offset,
        line: walked.line,
        column: walked.column,
    };
    Some(Record {
        kind,
        place: (kind != Kind::LoopEnd).then_some(place),
        length: walked.length,
        content,
        tags: (kind == Kind::Loop).then_some(walked.tags),
        decimal: decimal(walked, kind),
        next: usize::try_from(walked.next).ok()?,
    })
}

fn decimal(walked: &Walked, kind: Kind) -> Option<Decimal> {
    if !matches!(kind, Kind::Number | Kind::Uncertain) {
        return None;
    }
    let exponent = i64::try_from(walked.exponent).ok()?;
    Some(Decimal {
        minus: walked.sign == 1,
        integer: walked.integer,
        fraction: walked.fraction,
        digits: walked.digits,
        exponent: if walked.exponent_sign == 1 {
            -exponent
        } else {
            exponent
        },
        uncertainty: (kind == Kind::Uncertain).then_some(walked.uncertainty),
    })
}

#[cfg(test)]
mod tests {
    use super::*;

    #[test]
    fn a_part_is_taken_only_from_within() {
        let area = b"tabcx";
        assert_eq!(part_of(area, 1, 2), Some(&b"ab"[..]));
        assert_eq!(part_of(area, 5, 0), Some(&b""[..]));
        assert_eq!(part_of(area, 5, 1), None);
        assert_eq!(part_of(area, 6, 0), None);
        assert_eq!(part_of(area, u64::MAX, 1), None);
        assert_eq!(part_of(area, 1, u64::MAX), None);
    }
}
