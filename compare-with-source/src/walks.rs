//! The walk over a store, held to the model: to records that stand in it, or to document 01's table where
//! the bytes may be any.

use crate::answer::{mark_bytes, Body, Decimal, Record};
use crate::calls::{Kept, Walked};
use crate::over_stores::must;

/// No record stands there.
fn nothing() -> Walked {
    Walked {
        number: 14,
        ..Walked::default()
    }
}

/// The walk meets every record, and then the end.
pub fn over_records(records: &[Record], kept: Kept) -> Result<(), String> {
    let (mut at, mut start) = (0, 0);
    for record in records {
        let next = at + 1 + body_length(record.kind).unwrap_or(0) as u64;
        let expected = expected(record, start, next);
        must(kept.record_at(at) == expected, "walk: a record differs")?;
        (at, start) = (next, start + expected.content);
    }
    must(
        kept.record_at(at) == nothing(),
        "walk: something follows the end",
    )
}

/// The walk meets what the bytes of store and area hold, up to where no record stands.
pub fn over_bytes(store: &[u8], area: &[u8], kept: Kept) -> Result<(), String> {
    let mut at = 0;
    while let Some(met) = met(store, area, at) {
        must(
            kept.record_at(at as u64) == met,
            "walk: a record of changed bytes differs",
        )?;
        at = met.next as usize;
    }
    must(
        kept.record_at(at as u64) == nothing(),
        "walk: it goes on where no record stands",
    )
}

/// The bytes behind a kind, in document 01's table and, for 21, in document 02.
fn body_length(kind: u8) -> Option<usize> {
    match kind {
        7 => Some(0),
        3 | 8 | 9 => Some(16),
        1 | 2 | 4..=6 | 10..=13 | 21 => Some(20),
        14 => Some(34),
        15 => Some(38),
        _ => None,
    }
}

fn expected(record: &Record, start: u64, next: u64) -> Walked {
    let walked = Walked {
        kind: record.kind.into(),
        offset: record.place.offset as u64,
        length: record.length as u64,
        line: record.place.line as u64,
        column: record.place.column as u64,
        next,
        ..Walked::default()
    };
    match &record.body {
        Body::Nothing => walked,
        Body::Tags(tags) => Walked {
            tags: (*tags).into(),
            ..walked
        },
        Body::Content(content) => Walked {
            start,
            content: content.len() as u64,
            ..walked
        },
        Body::Number(decimal) => with_parts(walked, decimal),
    }
}

fn with_parts(walked: Walked, decimal: &Decimal) -> Walked {
    Walked {
        sign: decimal.minus.into(),
        integer: decimal.integer.into(),
        fraction: decimal.fraction,
        digits: decimal.fraction_digits.into(),
        exponent_sign: (decimal.exponent < 0).into(),
        exponent: decimal.exponent.unsigned_abs().into(),
        uncertainty: decimal.uncertainty.unwrap_or(0).into(),
        ..walked
    }
}

/// The record at an offset of any bytes: none where no whole one stands, or where its content is not
/// inside the area.
fn met(store: &[u8], area: &[u8], at: usize) -> Option<Walked> {
    let kind = *store.get(at)?;
    let next = at + 1 + body_length(kind)?;
    let body = store.get(at + 1..next)?;
    let field = |from| number(body, from, 4);
    let walked = Walked {
        kind: kind.into(),
        offset: field(0),
        length: field(4),
        line: field(8),
        column: field(12),
        next: next as u64,
        ..Walked::default()
    };
    match kind {
        3 | 7..=9 => Some(walked),
        5 => Some(Walked {
            tags: field(16),
            ..walked
        }),
        14 | 15 => Some(with_stored_parts(walked, body)),
        _ => {
            let content = walked.length.checked_sub(mark_bytes(kind) as u64)?;
            let start = field(16);
            let inside = start + content <= area.len() as u64;
            inside.then_some(Walked {
                start,
                content,
                ..walked
            })
        }
    }
}

/// Decimal parts as they are stored, within their limits or not.
fn with_stored_parts(walked: Walked, body: &[u8]) -> Walked {
    let exponent = number(body, 30, 4) as u32 as i32;
    Walked {
        sign: number(body, 16, 1),
        integer: number(body, 17, 4),
        fraction: number(body, 21, 8),
        digits: number(body, 29, 1),
        exponent_sign: (exponent < 0).into(),
        exponent: exponent.unsigned_abs().into(),
        uncertainty: number(body, 34, 4),
        ..walked
    }
}

/// The number of so many bytes, the lowest first; 0 where a body lacks them.
fn number(body: &[u8], from: usize, bytes: usize) -> u64 {
    let bytes = body.get(from..from + bytes).unwrap_or_default();
    let above = |number: u64, byte: &u8| number * 256 + u64::from(*byte);
    bytes.iter().rev().fold(0, above)
}

#[cfg(test)]
mod tests {
    use super::*;
    use crate::model;
    use crate::reading::Reading;
    use crate::stores::encode;

    /// A store and its area, for the library to walk over.
    fn kept<'a>(store: &'a [u8], area: &'a [u8]) -> Kept<'a> {
        Kept {
            reading: 1,
            store,
            area,
        }
    }

    fn records(text: &str) -> Vec<Record> {
        model::read(Reading::First, text.as_bytes()).expect(text)
    }

    /// Nine bytes of area, and one record of a content or of decimal parts.
    const AREA: &[u8] = b"abcdefghi";
    const TAG: [u8; 21] = [
        4, 7, 0, 0, 0, 4, 0, 0, 0, 1, 0, 0, 0, 8, 0, 0, 0, 2, 0, 0, 0,
    ];
    const NUMBER: [u8; 39] = [
        15, 7, 1, 0, 0, 5, 0, 0, 0, 2, 0, 0, 0, 3, 0, 0, 0, // kind and place
        200, 1, 0, 0, 128, 1, 0, 0, 0, 0, 0, 0, 2, 99, 255, 255, 255, 255, 6, 0, 0, 0,
    ];

    #[test]
    fn a_content_may_lie_anywhere_in_the_area() {
        let tag = Walked {
            kind: 4,
            offset: 7,
            length: 4,
            line: 1,
            column: 8,
            start: 2,
            content: 3,
            next: 21,
            ..Walked::default()
        };
        assert_eq!(met(&TAG, AREA, 0), Some(tag));
        assert_eq!(met(&TAG, &AREA[..5], 0), Some(tag));
        assert_eq!(met(&TAG, &AREA[..4], 0), None);
        assert_eq!(met(&TAG[..20], AREA, 0), None);
        let mut short = TAG;
        short[5] = 0;
        assert_eq!(met(&short, AREA, 0), None, "no room for the mark");
    }

    /// A sign of 200, 99 digits and an exponent of -1 are as they are stored.
    #[test]
    fn parts_are_as_they_are_stored() {
        let number = Walked {
            kind: 15,
            offset: 263,
            length: 5,
            line: 2,
            column: 3,
            sign: 200,
            integer: 2_147_483_649,
            fraction: 2 << 56 | 1,
            digits: 99,
            exponent_sign: 1,
            exponent: 1,
            uncertainty: 6,
            next: 39,
            ..Walked::default()
        };
        assert_eq!(met(&NUMBER, AREA, 0), Some(number));
        let loop_end = Walked {
            kind: 7,
            next: 2,
            ..Walked::default()
        };
        assert_eq!(met(&NUMBER, AREA, 1), Some(loop_end));
        for at in [2, 39, 40, usize::MAX] {
            assert_eq!(met(&NUMBER, AREA, at), None);
        }
    }

    #[test]
    fn the_library_walks_over_any_bytes() {
        let store = [&TAG[..], &NUMBER, &[7, 22], &TAG].concat();
        let walked = over_bytes(&store, AREA, kept(&store, AREA));
        assert_eq!(walked, Ok(()));
    }

    #[test]
    fn another_walk_is_seen() {
        let store = [&TAG[..], &NUMBER].concat();
        for at in 0..store.len() {
            let mut other = store.clone();
            other[at] ^= 1;
            let walked = over_bytes(&other, AREA, kept(&store, AREA));
            assert!(walked.is_err(), "{at}");
        }
        let walked = over_bytes(&store[..21], AREA, kept(&store, AREA));
        assert!(walked.is_err(), "the end");
    }

    #[test]
    fn another_record_is_seen() {
        let read = records("data_x _a b loop_ _c 1");
        let (store, area) = encode(&read);
        assert_eq!(over_records(&read, kept(&store, &area)), Ok(()));
        for other in [
            "data_x _a b loop_ _c 2",
            "data_x _a  b loop_ _c 1",
            "data_xy _a b loop_ _c 1",
            "data_x _a b loop_ _c 1 2",
            "data_x _a b",
        ] {
            let walked = over_records(&records(other), kept(&store, &area));
            assert!(walked.is_err(), "{other}");
        }
    }
}
