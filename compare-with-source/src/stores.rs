//! Records as bytes: the store and the area, written and cut into records again.

use std::ops::Range;

use crate::answer::{mark_bytes, Body, Decimal, Place, Record};

/// The store and the area that Read writes for these records.
pub fn encode(records: &[Record]) -> (Vec<u8>, Vec<u8>) {
    let (mut store, mut area) = (Vec::new(), Vec::new());
    for record in records {
        put_place(&mut store, record);
        match &record.body {
            Body::Nothing => {}
            Body::Content(content) => {
                put(&mut store, area.len());
                area.extend(content);
            }
            Body::Tags(tags) => store.extend(tags.to_le_bytes()),
            Body::Number(decimal) => put_decimal(&mut store, decimal),
        }
    }
    (store, area)
}

/// The store that Outline writes for these records.
pub fn encode_outline(records: &[Record]) -> Vec<u8> {
    let mut store = Vec::new();
    for record in records {
        put_place(&mut store, record);
    }
    store
}

/// The kind, then offset, length, line and column, which a loop's end lacks.
fn put_place(store: &mut Vec<u8>, record: &Record) {
    store.push(record.kind);
    if record.kind != 7 {
        put(store, record.place.offset);
        put(store, record.length);
        put(store, record.place.line);
        put(store, record.place.column);
    }
}

fn put(store: &mut Vec<u8>, field: usize) {
    store.extend((field as u32).to_le_bytes());
}

fn put_decimal(store: &mut Vec<u8>, decimal: &Decimal) {
    store.push(decimal.minus.into());
    store.extend(decimal.integer.to_le_bytes());
    store.extend(decimal.fraction.to_le_bytes());
    store.push(decimal.fraction_digits);
    store.extend(decimal.exponent.to_le_bytes());
    if let Some(uncertainty) = decimal.uncertainty {
        store.extend(uncertainty.to_le_bytes());
    }
}

/// The records of a store and its area; none where the bytes do not make whole records.
pub fn decode(store: &[u8], area: &[u8]) -> Option<Vec<Record>> {
    let mut records = Vec::new();
    let mut rest = store;
    while !rest.is_empty() {
        records.push(record(&mut rest, area)?);
    }
    Some(records)
}

fn record(rest: &mut &[u8], area: &[u8]) -> Option<Record> {
    let kind = bytes::<1>(rest)?[0];
    if kind == 7 {
        return Some(Record::LOOP_END);
    }
    let offset = field(rest)?;
    let length = field(rest)?;
    let place = Place {
        offset,
        line: field(rest)?,
        column: field(rest)?,
    };
    let body = match kind {
        1 | 2 | 4 | 6 | 10..=13 | 21 => Body::Content(content(rest, area, kind, length)?),
        3 | 8 | 9 => Body::Nothing,
        5 => Body::Tags(u32::from_le_bytes(bytes(rest)?)),
        14 | 15 => Body::Number(decimal(rest, kind)?),
        _ => return None,
    };
    Some(Record {
        kind,
        place,
        length,
        body,
    })
}

fn content(rest: &mut &[u8], area: &[u8], kind: u8, length: usize) -> Option<Vec<u8>> {
    let start = field(rest)?;
    let within: Range<usize> = start..start + length.checked_sub(mark_bytes(kind))?;
    Some(area.get(within)?.to_vec())
}

fn decimal(rest: &mut &[u8], kind: u8) -> Option<Decimal> {
    Some(Decimal {
        minus: bytes::<1>(rest)?[0] == 1,
        integer: u32::from_le_bytes(bytes(rest)?),
        fraction: u64::from_le_bytes(bytes(rest)?),
        fraction_digits: bytes::<1>(rest)?[0],
        exponent: i32::from_le_bytes(bytes(rest)?),
        uncertainty: match kind {
            15 => Some(u32::from_le_bytes(bytes(rest)?)),
            _ => None,
        },
    })
}

/// Takes a field of four bytes.
fn field(rest: &mut &[u8]) -> Option<usize> {
    Some(u32::from_le_bytes(bytes(rest)?) as usize)
}

/// Takes so many bytes.
fn bytes<const COUNT: usize>(rest: &mut &[u8]) -> Option<[u8; COUNT]> {
    let (first, after) = rest.split_first_chunk::<COUNT>()?;
    *rest = after;
    Some(*first)
}

#[cfg(test)]
mod tests {
    use super::*;
    use crate::model;
    use crate::reading::Reading;

    #[test]
    fn a_store_is_cut_into_its_records() {
        let text = b"data_x save_f _a 'b' save_ loop_ _c -1.25e-3(4) ? .\n;x\n;";
        let records = model::read(Reading::First, text).expect("the text is read");
        let (store, area) = encode(&records);
        assert_eq!(decode(&store, &area), Some(records));
        assert_eq!(decode(&store[..store.len() - 2], &area), None);
    }
}
