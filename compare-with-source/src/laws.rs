//! What the documents claim of every text, tried on one: digits don't show, each record's token stands at
//! its place, what is read is sound, its rendering is read as the same, and both readings agree where
//! they are owed to. And of every store: one that is sound comes back from its rendering.

use crate::alike;
use crate::alter::near;
use crate::answer::{Answer, Record};
use crate::compare::Verdict;
use crate::random::Random;
use crate::reading::Reading;
use crate::{model, model_sound, model_stores, stores, tokens};

/// What comes of holding the model's answer to a text to these laws.
pub fn judge(reading: Reading, text: &[u8], answer: &Answer) -> Verdict {
    match fault(reading, text, answer) {
        Some(fault) => Verdict::Different(String::from(fault)),
        None => Verdict::Same(answer.as_ref().map_or_else(|refusal| refusal.number, |_| 0)),
    }
}

/// The law that an answer breaks, if any.
fn fault(reading: Reading, text: &[u8], answer: &Answer) -> Option<&'static str> {
    if !hides_digits(reading, text, answer) {
        return Some("digits show in an outline or a refusal");
    }
    let records = answer.as_ref().ok()?;
    let words = std::str::from_utf8(text).expect("a text that is read is ASCII");
    let (store, area) = stores::encode(records);
    if tokens::fault(words, records).is_some() {
        Some("a record and its token differ")
    } else if !model_sound::is_sound(reading, &store, &area) {
        Some("what was read is not sound")
    } else if !comes_back(reading, records) {
        Some("the rendering is read otherwise")
    } else if reading == Reading::Strict && !reads_alike(text, records) {
        Some("the first reading has other records")
    } else {
        near_fault(reading, text, records)
    }
}

/// Whether other digits in the same places give the same outline or the same refusal.
fn hides_digits(reading: Reading, text: &[u8], answer: &Answer) -> bool {
    [zeros(text), other_digits(text)].iter().all(|other| {
        match (answer, model::read(reading, other)) {
            (Ok(one), Ok(other)) => stores::encode_outline(one) == stores::encode_outline(&other),
            (Err(one), Err(other)) => *one == other,
            _ => false,
        }
    })
}

fn zeros(text: &[u8]) -> Vec<u8> {
    let zero = |byte: &u8| if byte.is_ascii_digit() { b'0' } else { *byte };
    text.iter().map(zero).collect()
}

/// Each digit moved on, by one more at each place.
fn other_digits(text: &[u8]) -> Vec<u8> {
    let mut other = text.to_vec();
    for (offset, byte) in other.iter_mut().enumerate() {
        if byte.is_ascii_digit() {
            *byte = b'0' + ((usize::from(*byte - b'0') + offset % 9 + 1) % 10) as u8;
        }
    }
    other
}

/// Whether the rendering is read as the same kinds, contents and decimals.
pub fn comes_back(reading: Reading, records: &[Record]) -> bool {
    match model::read(reading, &model_stores::rendering(reading, records)) {
        Ok(again) => are_same(records, &again),
        Err(_) => false,
    }
}

/// Whether records are the same but for their places.
fn are_same(records: &[Record], others: &[Record]) -> bool {
    let mut pairs = records.iter().zip(others);
    records.len() == others.len()
        && pairs.all(|(one, other)| one.kind == other.kind && one.body == other.body)
}

/// Whether the first reading has the strict one's records, places included, where both are owed that.
fn reads_alike(text: &[u8], records: &[Record]) -> bool {
    let owed = alike::is_owed_alike(text, records) || alike::is_found_alike(records);
    !owed || model::read(Reading::First, text).is_ok_and(|first| first == records)
}

/// A store near that of the records: it is unsound, or comes back.
fn near_fault(reading: Reading, text: &[u8], records: &[Record]) -> Option<&'static str> {
    // The same text makes the same store, so that a finding can be made smaller.
    let sum = text.iter().map(|byte| u64::from(*byte)).sum();
    let (store, area) = near(records, &mut Random::new(text.len() as u64, sum));
    if !model_sound::is_sound(reading, &store, &area) {
        return None;
    }
    let back = stores::decode(&store, &area).is_some_and(|near| comes_back(reading, &near));
    (!back).then_some("a sound store is rendered, and read otherwise")
}

#[cfg(test)]
mod tests {
    use super::*;
    use crate::answer::Body;
    use crate::exhaustive::{self, Depth};
    use crate::generate;
    use crate::report::escaped;

    const READINGS: [Reading; 2] = [Reading::First, Reading::Strict];

    /// Holds the model's answer to a text to the laws; answers its number.
    fn held(reading: Reading, text: &[u8]) -> u8 {
        match judge(reading, text, &model::read(reading, text)) {
            Verdict::Same(number) => number,
            verdict => panic!("{reading:?} {}: {verdict:?}", escaped(text)),
        }
    }

    #[test]
    fn the_laws_hold_of_random_texts() {
        let mut answers = [[0; 19]; 2];
        for (reading, answers) in READINGS.iter().zip(&mut answers) {
            for mix in READINGS {
                for number in 0..25_000 {
                    let text = generate::text(mix, 16, number);
                    answers[usize::from(held(*reading, &text))] += 1;
                }
            }
        }
        for number in [0, 2, 3, 4, 5, 6, 7, 8, 9] {
            assert!(answers[0][number] > 0, "{number} in the first reading");
        }
        for number in [0, 2, 3, 4, 5, 6, 7, 8, 9, 15, 16, 17, 18] {
            assert!(answers[1][number] > 0, "{number} in the strict reading");
        }
    }

    #[test]
    fn the_laws_hold_of_every_short_text() {
        let depth = Depth {
            fragments: 2,
            letters: 3,
        };
        for reading in READINGS {
            exhaustive::each(Reading::Strict, &depth, &mut |text| {
                held(reading, text);
                true
            });
        }
    }

    /// The fault of an answer that is not the model's own.
    fn seen(text: &str, answer: Answer) -> Option<&'static str> {
        fault(Reading::Strict, text.as_bytes(), &answer)
    }

    #[test]
    fn a_wrong_answer_breaks_a_law() {
        let text = "data_x _a 'b' _c 1";
        let records = model::read(Reading::Strict, text.as_bytes()).expect(text);
        let mut moved = records.clone();
        moved[1].place.offset += 1;
        let shows = Some("digits show in an outline or a refusal");
        assert_eq!(seen(text, Ok(moved)), shows);
        let over = model::read(Reading::Strict, b"data_x _a 1234567890");
        assert_eq!(seen("data_x _a 123456789", over), shows);
        let mut other = records;
        other[2].body = Body::Content(b"'c".to_vec());
        assert_eq!(seen(text, Ok(other)), Some("a record and its token differ"));
    }

    #[test]
    fn other_records_do_not_come_back() {
        for text in [
            "data_x _a 1e+",
            "data_x _a 'b'",
            "data_x _a ;b",
            "data_x data_y",
        ] {
            let records = model::read(Reading::Strict, text.as_bytes()).expect(text);
            assert!(comes_back(Reading::Strict, &records), "{text}");
            assert!(!comes_back(Reading::First, &records), "{text}");
        }
    }

    #[test]
    fn other_digits_stand_in_the_same_places() {
        let text = b"0123456789x0123456789";
        let other = other_digits(text);
        let moved = |(one, other): (&u8, &u8)| one.is_ascii_digit() == (one != other);
        assert!(text.iter().zip(&other).all(moved));
        assert!(other.iter().filter(|byte| byte.is_ascii_digit()).count() == 20);
        assert_eq!(zeros(b"a1_29"), b"a0_00");
    }
}
