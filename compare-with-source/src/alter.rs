//! Stores near those that Read writes: records and bytes with a change or two, some still sound, some
//! not.

use crate::answer::{mark_bytes, Body, Decimal, Record};
use crate::random::Random;
use crate::stores;

/// Contents that tell the kinds and the readings apart.
const CONTENTS: [&str; 26] = [
    "", "a", "1", ".", "?", ".5", ".x", "?x", "1e+", "1()", "loop_", "loop_x", "stop_", "data_",
    "save_x", "'", "'a", "'a'", "'a' ", "\"b c", ";", ";b", "_", "b\n", "b\n;\n", "#",
];

/// The store and the area of these records after one to three changes, most often of whole records.
pub fn near(records: &[Record], random: &mut Random) -> (Vec<u8>, Vec<u8>) {
    if random.once_in(3) {
        let (mut store, mut area) = stores::encode(records);
        damage(&mut store, &mut area, random);
        return (store, area);
    }
    let mut records = records.to_vec();
    for _ in 0..1 + random.below(3) {
        if !records.is_empty() {
            alter(&mut records, random);
        }
    }
    stores::encode(&records)
}

/// Changes one byte of the store or the area, or its length.
fn damage(store: &mut Vec<u8>, area: &mut Vec<u8>, random: &mut Random) {
    let bytes = if random.once_in(4) { area } else { store };
    let at = random.below(bytes.len() + 1);
    match bytes.get_mut(at) {
        None => bytes.push(random.below(256) as u8),
        Some(_) if random.once_in(20) => bytes.truncate(at),
        Some(byte) if random.once_in(2) => *byte ^= 1 << random.below(8),
        Some(byte) => *byte = random.below(256) as u8,
    }
}

/// Changes one record, takes it out or puts it in once more.
fn alter(records: &mut Vec<Record>, random: &mut Random) {
    let at = random.below(records.len());
    let other = random.below(records.len());
    match random.below(8) {
        0 => drop(records.remove(at)),
        1 => records.insert(at, records[other].clone()),
        2 => records.swap(at, other),
        3 => set_kind(&mut records[at], random),
        4 => lengthen(&mut records[at], random),
        5 => set_number(&mut records[at], random),
        _ => set_content(&mut records[at], random),
    }
}

fn set_kind(record: &mut Record, random: &mut Random) {
    const NAMES: [u8; 4] = [1, 2, 4, 6];
    const TEXTS: [u8; 5] = [10, 11, 12, 13, 21];
    let kinds: &[u8] = match record.kind {
        1 | 2 | 4 | 6 => &NAMES,
        10..=13 | 21 => &TEXTS,
        _ => return,
    };
    record.kind = kinds[random.below(kinds.len())];
    fit_length(record);
}

fn set_content(record: &mut Record, random: &mut Random) {
    if let Body::Content(content) = &mut record.body {
        *content = random.pick(&CONTENTS).as_bytes().to_vec();
        fit_length(record);
    }
}

/// Puts letters behind a content, up to the length at which a name or a line is full.
fn lengthen(record: &mut Record, random: &mut Random) {
    if let Body::Content(content) = &mut record.body {
        let full = if record.kind < 10 { 75 } else { 2048 };
        let end = match content.last() {
            Some(b'\n') => content.pop(),
            _ => None,
        };
        content.resize(content.len().max(full - 2 + random.below(4)), b'x');
        content.extend(end);
        fit_length(record);
    }
}

/// Another number of tags, or a decimal with one part at its limit or over it.
fn set_number(record: &mut Record, random: &mut Random) {
    match &mut record.body {
        Body::Tags(tags) => *tags = random.below(4) as u32,
        Body::Number(decimal) => set_part(decimal, random),
        Body::Nothing | Body::Content(_) => {}
    }
}

fn set_part(decimal: &mut Decimal, random: &mut Random) {
    let edge = 999_999_999 + random.below(2) as u32;
    match random.below(6) {
        0 => decimal.integer = edge,
        1 => decimal.fraction_digits = random.below(20) as u8,
        2 => decimal.fraction = 10u64.pow(random.below(20) as u32) - random.below(2) as u64,
        3 => decimal.exponent = edge as i32,
        4 => decimal.exponent = -(edge as i32),
        _ => decimal.uncertainty = decimal.uncertainty.map(|_| edge),
    }
}

/// The length of a token is its content's and its marks'.
fn fit_length(record: &mut Record) {
    if let Body::Content(content) = &record.body {
        record.length = content.len() + mark_bytes(record.kind);
    }
}

#[cfg(test)]
mod tests {
    use super::*;
    use crate::reading::Reading;
    use crate::{generate, model, model_sound};

    #[test]
    fn some_are_sound_and_some_are_not() {
        for reading in [Reading::First, Reading::Strict] {
            let mut counts = [0; 2];
            for number in 0..2000 {
                let Ok(records) = model::read(reading, &generate::text(reading, 19, number)) else {
                    continue;
                };
                let (store, area) = near(&records, &mut Random::new(19, number));
                counts[usize::from(model_sound::is_sound(reading, &store, &area))] += 1;
            }
            assert!(counts.iter().all(|count| *count > 100), "{counts:?}");
        }
    }
}
