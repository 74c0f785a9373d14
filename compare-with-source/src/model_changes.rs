//! What changed from one store to another, written from the rules of document 02 and not from the
//! library's definitions: which values match, and what two of them are to each other. A test aid, as the
//! model is.

use std::cmp::Ordering;
use std::collections::HashMap;

use crate::answer::{Body, Decimal, Record};
use crate::model_sound;
use crate::reading::Reading;
use crate::stores;

/// The bytes of a store and of its area.
pub type Stored<'a> = (&'a [u8], &'a [u8]);

/// What a comparison comes to.
#[derive(Debug, Clone, PartialEq, Eq)]
pub enum Compared {
    /// 12, or 13 with its two records.
    Refused(u8, usize, usize),
    Changes(Vec<Change>),
}

/// An entry of the list: the case, and the record on each side, 0 where there is none.
#[derive(Debug, Clone, Copy, PartialEq, Eq)]
pub struct Change {
    pub case: u8,
    pub old: usize,
    pub new: usize,
}

const ONLY_OLD: u8 = 1;
const ONLY_NEW: u8 = 2;
const DIFFERENT: u8 = 3;
const OLD_LARGER: u8 = 4;
const NEW_LARGER: u8 = 5;
const UNCERTAINTY: u8 = 6;
const REWRITTEN: u8 = 7;

/// Compares two stores: both must be sound and of one block, the old one first, and then have no name
/// twice, again the old one first.
pub fn compare(reading: Reading, old: Stored, new: Stored) -> Compared {
    let (Some(old), Some(new)) = (one_block(reading, old), one_block(reading, new)) else {
        return Compared::Refused(12, 0, 0);
    };
    match repeated(&old).or_else(|| repeated(&new)) {
        Some((first, second)) => Compared::Refused(13, first, second),
        None => Compared::Changes(changes(&old, &new)),
    }
}

/// The records of a sound store that has one block.
fn one_block(reading: Reading, (store, area): Stored) -> Option<Vec<Record>> {
    let records = stores::decode(store, area)?;
    let blocks = records.iter().filter(|record| record.kind == 1).count();
    (blocks == 1 && model_sound::is_sound(reading, store, area)).then_some(records)
}

/// Names are told apart once A to Z is taken as a to z.
fn folded(record: &Record) -> Vec<u8> {
    match &record.body {
        Body::Content(name) => name.to_ascii_lowercase(),
        _ => Vec::new(),
    }
}

/// The earliest record that repeats a frame's name, or a tag of its scope, behind the first of that name.
fn repeated(records: &[Record]) -> Option<(usize, usize)> {
    let (mut frames, mut tags) = (HashMap::new(), HashMap::new());
    let mut frame = None;
    for (number, record) in records.iter().enumerate() {
        let first = match record.kind {
            2 => {
                frame = Some(number);
                frames.insert(folded(record), number)
            }
            4 | 6 => tags.insert((frame, folded(record)), number),
            _ => None,
        };
        if let Some(first) = first {
            return Some((first, number));
        }
        if record.kind == 3 {
            frame = None;
        }
    }
    None
}

/// What a value is found by: the frame's name, none for the block itself; the tag's; and the row.
type Key = (Option<Vec<u8>>, Vec<u8>, usize);

/// Every value of a store in its order, with its record's number.
fn values(records: &[Record]) -> Vec<(Key, usize, &Record)> {
    let mut values = Vec::new();
    let (mut frame, mut tags, mut passed) = (None, Vec::new(), 0);
    for (number, record) in records.iter().enumerate() {
        match record.kind {
            2 => frame = Some(folded(record)),
            3 => frame = None,
            5 => tags.clear(),
            4 => tags = vec![folded(record)],
            6 => tags.push(folded(record)),
            8..=15 | 21 => {
                let key = (
                    frame.clone(),
                    tags[passed % tags.len()].clone(),
                    passed / tags.len(),
                );
                values.push((key, number, record));
                passed += 1;
                continue;
            }
            _ => {}
        }
        passed = 0;
    }
    values
}

/// The list: each value of the old store that the new one lacks or has otherwise, then what only the new
/// one has.
fn changes(old: &[Record], new: &[Record]) -> Vec<Change> {
    let (old, new) = (values(old), values(new));
    let by_key = |values: &[(Key, usize, &Record)]| -> HashMap<Key, usize> {
        values
            .iter()
            .enumerate()
            .map(|(at, (key, ..))| (key.clone(), at))
            .collect()
    };
    let (in_old, in_new) = (by_key(&old), by_key(&new));
    let mut list = Vec::new();
    for (key, number, record) in &old {
        let (case, partner) = match in_new.get(key).map(|at| &new[*at]) {
            None => (Some(ONLY_OLD), 0),
            Some((_, partner, other)) => (case(record, other), *partner),
        };
        list.extend(case.map(|case| Change {
            case,
            old: *number,
            new: partner,
        }));
    }
    let only_new = new.iter().filter(|(key, ..)| !in_old.contains_key(key));
    list.extend(only_new.map(|(_, number, _)| Change {
        case: ONLY_NEW,
        old: 0,
        new: *number,
    }));
    list
}

/// What two values are to each other; none where nothing is to be said.
fn case(old: &Record, new: &Record) -> Option<u8> {
    match (&old.body, &new.body) {
        (Body::Number(old), Body::Number(new)) => number_case(old, new),
        (Body::Content(_), Body::Content(_)) => (inside(old) != inside(new)).then_some(DIFFERENT),
        // A point and a question mark are equal to themselves alone.
        _ => (old.kind != new.kind).then_some(DIFFERENT),
    }
}

/// A text without its marks; kind 21 keeps its opening one.
fn inside(record: &Record) -> &[u8] {
    match &record.body {
        Body::Content(content) => &content[usize::from(record.kind == 21)..],
        _ => &[],
    }
}

fn number_case(old: &Decimal, new: &Decimal) -> Option<u8> {
    match Amount::value(old).cmp(&Amount::value(new)) {
        Ordering::Greater => Some(OLD_LARGER),
        Ordering::Less => Some(NEW_LARGER),
        Ordering::Equal if Amount::uncertainty(old) != Amount::uncertainty(new) => {
            Some(UNCERTAINTY)
        }
        // The parts hold the kind too: an uncertainty of 0 is not the same as none.
        Ordering::Equal => (old != new).then_some(REWRITTEN),
    }
}

/// A number as a whole number without a zero at its end, times a power of ten; zero has no sign and the
/// power 0. So two are the same exactly where all three are.
#[derive(Debug, Clone, Copy, PartialEq, Eq)]
struct Amount {
    minus: bool,
    whole: u128,
    power: i64,
}

impl Amount {
    fn new(minus: bool, whole: u128, power: i64) -> Amount {
        match (whole, whole % 10) {
            (0, _) => Amount {
                minus: false,
                whole: 0,
                power: 0,
            },
            (_, 0) => Amount::new(minus, whole / 10, power + 1),
            _ => Amount {
                minus,
                whole,
                power,
            },
        }
    }

    fn value(decimal: &Decimal) -> Amount {
        let unit = 10u128.pow(decimal.fraction_digits.into());
        let whole = u128::from(decimal.integer) * unit + u128::from(decimal.fraction);
        Amount::new(decimal.minus, whole, last_power(decimal))
    }

    fn uncertainty(decimal: &Decimal) -> Amount {
        let whole = decimal.uncertainty.unwrap_or(0).into();
        Amount::new(false, whole, last_power(decimal))
    }

    /// How two that are not below zero are ordered: by the power of the first digit, and then by the
    /// digits, once both have as many.
    fn size_cmp(&self, other: &Amount) -> Ordering {
        let digits = |amount: &Amount| amount.whole.checked_ilog10().map(i64::from);
        let (Some(own), Some(others)) = (digits(self), digits(other)) else {
            return self.whole.cmp(&other.whole);
        };
        let most = own.max(others);
        let filled = |amount: &Amount, has: i64| amount.whole * 10u128.pow((most - has) as u32);
        let first_digit = (own + self.power).cmp(&(others + other.power));
        first_digit.then_with(|| filled(self, own).cmp(&filled(other, others)))
    }

    fn cmp(&self, other: &Amount) -> Ordering {
        match (self.minus, other.minus) {
            (false, false) => self.size_cmp(other),
            (true, true) => other.size_cmp(self),
            (true, false) => Ordering::Less,
            (false, true) => Ordering::Greater,
        }
    }
}

/// The power of ten of the last digit written.
fn last_power(decimal: &Decimal) -> i64 {
    i64::from(decimal.exponent) - i64::from(decimal.fraction_digits)
}

#[cfg(test)]
mod tests {
    use super::*;
    use crate::generate::pairs;
    use crate::random::Random;
    use crate::{model, model_stores};

    const READINGS: [Reading; 2] = [Reading::First, Reading::Strict];

    fn stored(reading: Reading, text: &[u8]) -> Option<(Vec<u8>, Vec<u8>)> {
        let records = model::read(reading, text).ok()?;
        Some(stores::encode(&records))
    }

    fn compared(reading: Reading, old: &[u8], new: &[u8]) -> Compared {
        let (old, new) = (stored(reading, old), stored(reading, new));
        let (old, new) = (old.expect("it is read"), new.expect("it is read"));
        compare(reading, (&old.0, &old.1), (&new.0, &new.1))
    }

    /// The entries as triples.
    fn listed(old: &str, new: &str) -> Vec<(u8, usize, usize)> {
        match compared(Reading::First, old.as_bytes(), new.as_bytes()) {
            Compared::Changes(list) => list
                .iter()
                .map(|entry| (entry.case, entry.old, entry.new))
                .collect(),
            refused => panic!("{old} {new}: {refused:?}"),
        }
    }

    /// The case of two values of one tag, in both directions.
    fn cases(old: &str, new: &str) -> [u8; 2] {
        let case = |old: &str, new: &str| {
            let text = |value: &str| format!("data_x _a\n{value}\n");
            listed(&text(old), &text(new))
                .first()
                .map_or(0, |(case, ..)| *case)
        };
        [case(old, new), case(new, old)]
    }

    /// Document 02's own examples, and the readings of them that were settled.
    #[test]
    fn values_are_compared() {
        for (old, new, expected) in [
            ("1.50", "1.5", [7, 7]),
            ("1.5", "15e-1", [7, 7]),
            ("-0", "0", [7, 7]),
            ("0e999999999", "0", [7, 7]),
            ("1.5(1)", "1.50(10)", [7, 7]),
            ("1.5", "1.5(0)", [7, 7]),
            ("1.5(1)", "1.50(1)", [6, 6]),
            ("2(1)", "1(2)", [4, 5]),
            ("1e5", "1E+5", [0, 0]),
            ("1e999999999", "1e-999999999", [4, 5]),
            ("-1e999999999", "-1e-999999999", [5, 4]),
            ("1e-999999999", "0", [4, 5]),
            ("999999999.999999999999999999", "1e9", [5, 4]),
            ("a", "'a'", [0, 0]),
            ("'a'", ";a\n;", [3, 3]),
            ("1", "'1'", [3, 3]),
            (".", "'.'", [3, 3]),
            (".", "?", [3, 3]),
            ("?", "?", [0, 0]),
            (".", "0", [3, 3]),
        ] {
            assert_eq!(cases(old, new), expected, "{old} {new}");
        }
    }

    #[test]
    fn values_match_by_scope_name_and_row() {
        assert_eq!(listed("data_x _a 1 _b 2", "data_y _B 2 _A 1"), []);
        assert_eq!(
            listed("data_x _a 1", "data_x loop_ _b _a x 2 y 3"),
            [(5, 2, 5), (2, 0, 4), (2, 0, 6), (2, 0, 7)]
        );
        assert_eq!(
            listed("data_x save_f _a 1 save_", "data_x _a 1"),
            [(1, 3, 0), (2, 0, 2)]
        );
        assert_eq!(
            listed("data_x save_F _a 1 save_", "data_x save_f _A 1 save_"),
            []
        );
        assert_eq!(
            listed(
                "data_x loop_ _a _b 1 2 3 4",
                "data_x loop_ _b 2 5 loop_ _a 1 3"
            ),
            [(5, 7, 4)]
        );
        assert_eq!(listed("data_x", "data_x loop_ _a"), []);
    }

    #[test]
    fn refusals_come_in_their_order() {
        let refused = |old: &[u8], new: &[u8]| compared(Reading::Strict, old, new);
        let (good, twice): (&[u8], &[u8]) = (b"data_x _a 1", b"data_x _b 1 _B 2");
        let (blocks, frames): (&[u8], &[u8]) =
            (b"data_x data_y", b"data_x save_f save_ save_F save_");
        for (old, new) in [
            (blocks, good),
            (good, blocks),
            (twice, blocks),
            (blocks, frames),
        ] {
            assert_eq!(refused(old, new), Compared::Refused(12, 0, 0));
        }
        assert_eq!(refused(twice, frames), Compared::Refused(13, 1, 3));
        assert_eq!(refused(frames, twice), Compared::Refused(13, 1, 3));
        assert_eq!(
            refused(
                b"data_x _a 1 save_a save_ save_b save_ _b 1 save_B save_",
                good
            ),
            Compared::Refused(13, 5, 9)
        );
    }

    /// The vectors that the library's own test program runs, with answers worked out by hand.
    #[test]
    fn the_model_answers_the_vectors() {
        const VECTORS: &str = include_str!("../../crates/check_compare/stdout");
        let mut made = Made::default();
        let mut held = 0;
        for line in VECTORS.lines().filter(|line| !line.starts_with('#')) {
            let (asked, answer) = line.split_once(" -> ").unwrap_or((line, ""));
            let (letter, rest) = asked.split_once(' ').unwrap_or((asked, ""));
            if let Some(compared) = made.asked(letter, rest) {
                let room = rest.parse().expect("a room is a number");
                assert_eq!(told(&compared, room), answer, "{line}");
                held += 1;
            }
        }
        assert!(held > 40, "{held}");
    }

    /// What the vectors have made so far: a reading, and two stores with their areas.
    #[derive(Default)]
    struct Made {
        strict: bool,
        old: (Vec<u8>, Vec<u8>),
        new: (Vec<u8>, Vec<u8>),
    }

    impl Made {
        /// Does what a line asks for: `g` sets the reading, `o` and `n` the stores, the others compare.
        fn asked(&mut self, letter: &str, rest: &str) -> Option<Compared> {
            let reading = READINGS[usize::from(self.strict)];
            let read = || stored(reading, &unfolded(rest)).unwrap_or_default();
            let (old, new) = match letter {
                "c" => (&self.old, &self.new),
                "b" => (&self.new, &self.old),
                "s" => (&self.old, &self.old),
                _ => {
                    match letter {
                        "g" => self.strict = rest == "2",
                        "o" => self.old = read(),
                        "n" => self.new = read(),
                        _ => {}
                    }
                    return None;
                }
            };
            Some(compare(reading, (&old.0, &old.1), (&new.0, &new.1)))
        }
    }

    /// The bytes of a text in which `\\` and two hexadecimal digits stand for one.
    fn unfolded(text: &str) -> Vec<u8> {
        let mut parts = text.split('\\');
        let mut bytes = parts.next().unwrap_or_default().as_bytes().to_vec();
        for part in parts {
            let (digits, rest) = part.split_at(2);
            bytes.push(u8::from_str_radix(digits, 16).expect("two digits"));
            bytes.extend(rest.bytes());
        }
        bytes
    }

    /// An answer as the test program writes it: its seven numbers, and each entry.
    fn told(compared: &Compared, room: usize) -> String {
        match compared {
            Compared::Refused(number, first, second) => {
                format!("{number} {first} {second} 0 0 0 0")
            }
            Compared::Changes(list) if 17 * list.len() > room => {
                format!("10 0 0 0 0 {} 0", 17 * list.len())
            }
            Compared::Changes(list) => {
                let entry =
                    |change: &Change| format!(", {} {} {}", change.case, change.old, change.new);
                format!(
                    "0 0 0 0 0 {} 0{}",
                    17 * list.len(),
                    list.iter().map(entry).collect::<String>()
                )
            }
        }
    }

    /// What is claimed of every pair: nothing differs from itself or from what its rendering reads as, and
    /// old and new may be swapped.
    #[test]
    fn the_laws_hold_of_random_pairs() {
        let mut seen = [0; 8];
        for reading in READINGS {
            for number in 0..8_000 {
                let mut random = Random::new(23, number);
                let [old, new] = match number % 100 {
                    0 => pairs::large(reading, 300, &mut random),
                    _ => pairs::pair(reading, &mut random),
                };
                let (Some(one), Some(other)) = (stored(reading, &old), stored(reading, &new))
                else {
                    continue;
                };
                let (one, other) = ((&one.0[..], &one.1[..]), (&other.0[..], &other.1[..]));
                let Compared::Changes(list) = compare(reading, one, other) else {
                    continue;
                };
                assert_eq!(compare(reading, one, one), Compared::Changes(Vec::new()));
                let records = stores::decode(one.0, one.1).expect("it is sound");
                let again = stored(reading, &model_stores::rendering(reading, &records));
                let again = again.expect("a rendering is read");
                assert_eq!(
                    compare(reading, one, (&again.0, &again.1)),
                    Compared::Changes(Vec::new())
                );
                let Compared::Changes(back) = compare(reading, other, one) else {
                    panic!("it is compared one way alone");
                };
                assert_eq!(swapped(&list), in_order(&back), "{old:?} {new:?}");
                list.iter()
                    .for_each(|entry| seen[usize::from(entry.case)] += 1);
            }
        }
        assert!(seen[1..].iter().all(|count| *count > 100), "{seen:?}");
    }

    fn swapped(list: &[Change]) -> Vec<(usize, usize, u8)> {
        let swapped = |entry: &Change| Change {
            case: [0, 2, 1, 3, 5, 4, 6, 7][usize::from(entry.case)],
            old: entry.new,
            new: entry.old,
        };
        in_order(&list.iter().map(swapped).collect::<Vec<_>>())
    }

    fn in_order(list: &[Change]) -> Vec<(usize, usize, u8)> {
        let mut entries: Vec<_> = list
            .iter()
            .map(|entry| (entry.old, entry.new, entry.case))
            .collect();
        entries.sort();
        entries
    }
}
