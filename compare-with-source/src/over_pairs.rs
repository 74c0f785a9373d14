//! The library's comparison of two stores, held to the model: of random pairs, of a store with itself,
//! and of stores near one that was read.

use crate::alter;
use crate::calls::{self, Called, Kept};
use crate::generate::pairs;
use crate::library::NO_READINGS;
use crate::model_changes::{self, Change, Compared};
use crate::over_stores::must;
use crate::random::Random;
use crate::reading::Reading;
use crate::{model, stores};

/// How often each answer, and each case of an entry, was met.
#[derive(Default)]
pub struct Met {
    pub refused: [u64; 14],
    pub cases: [u64; 8],
}

/// Holds the library to the model on so many pairs of texts that are read, small ones or, where a size is
/// given, those of some so many values; what was met, or the first pair that breaks, and how.
pub fn hold(reading: Reading, seed: u64, pairs: u64, size: Option<usize>) -> Result<Met, String> {
    let mut met = Met::default();
    let (mut number, mut held) = (0, 0);
    while held < pairs {
        let mut random = Random::new(seed, number);
        let texts = match size {
            None => pairs::pair(reading, &mut random),
            Some(size) => pairs::large(reading, size, &mut random),
        };
        number += 1;
        let [Ok(old), Ok(new)] = texts.each_ref().map(|text| model::read(reading, text)) else {
            continue;
        };
        held += 1;
        let near = alter::near(&new, &mut random);
        let (old, new) = (stores::encode(&old), stores::encode(&new));
        for (one, other) in [
            (&old, &new),
            (&new, &old),
            (&old, &old),
            (&old, &near),
            (&near, &new),
        ] {
            let sides = ((&one.0[..], &one.1[..]), (&other.0[..], &other.1[..]));
            is_the_models(reading, sides.0, sides.1, &mut met).map_err(|fault| {
                let [old, new] = texts.each_ref().map(|text| String::from_utf8_lossy(text));
                format!("pair {number} of seed {seed}: {fault}\n{old}---\n{new}")
            })?;
        }
    }
    Ok(met)
}

type Stored<'a> = (&'a [u8], &'a [u8]);

/// Compares a store that was read with itself and with one near it, in its own reading and in the other.
/// Longer ones are left out: the library's time grows by the product of both.
pub fn of_one(reading: Reading, read: Stored, near: Stored) -> Result<(), String> {
    const LONGEST: usize = 1 << 15;
    if read.0.len().max(near.0.len()) > LONGEST {
        return Ok(());
    }
    for reading in [reading, reading.other()] {
        for (old, new) in [(read, read), (read, near), (near, read)] {
            is_the_models(reading, old, new, &mut Met::default())?;
        }
    }
    Ok(())
}

/// Compares two stores in a reading, and by numbers that name none.
fn is_the_models(reading: Reading, old: Stored, new: Stored, met: &mut Met) -> Result<(), String> {
    for number in NO_READINGS {
        refuses(number, old, new, answer(24))?;
    }
    match model_changes::compare(reading, old, new) {
        Compared::Refused(number, first, second) => {
            met.refused[usize::from(number)] += 1;
            let refused = Called {
                offset: first as u64,
                line: second as u64,
                ..answer(number.into())
            };
            refuses(reading.number(), old, new, refused)
        }
        Compared::Changes(list) => {
            met.refused[0] += 1;
            list.iter()
                .for_each(|entry| met.cases[usize::from(entry.case)] += 1);
            lists(reading.number(), old, new, &bytes(&list))
        }
    }
}

fn answer(number: u64) -> Called {
    Called {
        number,
        ..Called::default()
    }
}

/// The list as the header has it.
fn bytes(list: &[Change]) -> Vec<u8> {
    let entry = |change: &Change| {
        let numbers = [change.old, change.new].map(|number| (number as u64).to_le_bytes());
        [&[change.case][..], &numbers[0], &numbers[1]].concat()
    };
    list.iter().flat_map(entry).collect()
}

const FILL: u8 = 0xA5;
const GUARD: usize = 8;

/// A call with so much room, and the list afterwards.
fn call(reading: u64, old: Stored, new: Stored, room: usize) -> (Called, Vec<u8>) {
    let kept = |(store, area)| Kept {
        reading,
        store,
        area,
    };
    let mut list = vec![FILL; room + GUARD];
    let called = calls::compare(kept(old), kept(new), &mut list[..room]);
    (called, list)
}

fn refuses(reading: u64, old: Stored, new: Stored, expected: Called) -> Result<(), String> {
    for room in [0, 40] {
        let (called, list) = call(reading, old, new, room);
        must(
            called == expected,
            &format!("compare: {called:?} and not {expected:?}"),
        )?;
        must(
            list.iter().all(|byte| *byte == FILL),
            "compare: a refusal wrote something",
        )?;
    }
    Ok(())
}

/// The list is written where there is room for it, and nowhere else.
fn lists(reading: u64, old: Stored, new: Stored, expected: &[u8]) -> Result<(), String> {
    let length = expected.len();
    let told = |number| Called {
        first_length: length as u64,
        ..answer(number)
    };
    for room in [length, length + 5] {
        let (called, list) = call(reading, old, new, room);
        must(
            called == told(0),
            &format!("compare: {called:?} and not {:?}", told(0)),
        )?;
        let (written, rest) = list.split_at(length);
        must(
            written == expected,
            &format!("compare: the list is {written:?} and not {expected:?}"),
        )?;
        must(
            rest.iter().all(|byte| *byte == FILL),
            "compare: bytes behind the list changed",
        )?;
    }
    for room in [0, length.saturating_sub(1)] {
        if room < length {
            let (called, list) = call(reading, old, new, room);
            must(
                called == told(10),
                "compare: too little room is not answered by 10",
            )?;
            must(
                list.iter().all(|byte| *byte == FILL),
                "compare: too little room, and it wrote",
            )?;
        }
    }
    Ok(())
}

#[cfg(test)]
mod tests {
    use super::*;

    #[test]
    fn the_library_compares_large_pairs_as_the_model_does() {
        for reading in [Reading::First, Reading::Strict] {
            let met = hold(reading, 31, 20, Some(100)).unwrap_or_else(|fault| panic!("{fault}"));
            assert!(met.refused[0] > 40, "{:?}", met.refused);
        }
    }

    #[test]
    fn the_library_compares_random_pairs_as_the_model_does() {
        for reading in [Reading::First, Reading::Strict] {
            let met = hold(reading, 29, 1500, None).unwrap_or_else(|fault| panic!("{fault}"));
            for number in [0, 12, 13] {
                assert!(met.refused[number] > 50, "{number}: {:?}", met.refused);
            }
            assert!(
                met.cases[1..].iter().all(|count| *count > 20),
                "{:?}",
                met.cases
            );
        }
    }
}
