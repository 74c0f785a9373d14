//! Stores and areas of the first reading, whole and damaged, through every service that takes them.

mod common;

use chuntarek::{outline, record_at, Document, Reading};
use common::*;

const FIRST: Reading = Reading::First;

fn is_sound(store: &[u8], area: &[u8]) -> bool {
    common::is_sound(FIRST, store, area)
}

fn walk(store: &[u8], area: &[u8]) {
    common::walk(FIRST, store, area);
}

fn round_trip(store: &[u8], area: &[u8]) {
    common::round_trip(FIRST, store, area);
}

#[test]
fn places_may_differ_and_nothing_else() {
    let block = document(b"data_ab");
    assert!(is_sound(block.store(), block.area()));
    each_damage(block.store(), |at, byte, store| {
        let is_place = matches!(at, 1..=4 | 9..=16);
        assert_eq!(is_sound(store, b"ab"), is_place, "byte {at} is {byte}");
    });
}

#[test]
fn each_content_could_be_read_as_its_kind() {
    let block = document(b"data_ab");
    each_damage(b"ab", |_, byte, area| {
        let in_word = byte < 128 && !matches!(byte, 9 | 10 | 12 | 13 | 32);
        assert_eq!(is_sound(block.store(), area), in_word, "{area:?}");
    });
    let quoted = document(b"data_ _ 'a'");
    each_damage(b"a", |_, byte, area| {
        let in_quotes = byte < 128 && !matches!(byte, 10 | 13 | b'\'');
        assert_eq!(is_sound(quoted.store(), area), in_quotes, "{area:?}");
    });
}

#[test]
fn a_number_keeps_its_limits() {
    let number = document(b"data_ _ 7.5e3(2)");
    let body = 21 + 21 + 17;
    let changed = |at: usize, bytes: &[u8]| {
        let mut store = number.store().to_vec();
        store[body + at..body + at + bytes.len()].copy_from_slice(bytes);
        is_sound(&store, b"")
    };
    assert_eq!(number.store().len(), body + 22);
    assert_eq!([changed(0, &[1]), changed(0, &[2])], [true, false]);
    let most = 999_999_999_i32;
    for field in [1, 18] {
        assert!(changed(field, &most.to_le_bytes()));
        assert!(!changed(field, &(most + 1).to_le_bytes()));
        assert!(!changed(field, &u32::MAX.to_le_bytes()));
    }
    for (exponent, sound) in [
        (most, true),
        (-most, true),
        (most + 1, false),
        (-most - 1, false),
        (i32::MIN, false),
        (i32::MAX, false),
    ] {
        assert_eq!(changed(14, &exponent.to_le_bytes()), sound, "{exponent}");
    }
    assert!(changed(5, &9u64.to_le_bytes()));
    assert!(!changed(5, &10u64.to_le_bytes()));
    assert!(!changed(5, &u64::MAX.to_le_bytes()));
    for digits in 0..=255 {
        assert_eq!(
            changed(13, &[digits]),
            (1..=18).contains(&digits),
            "{digits}"
        );
    }
}

#[test]
fn every_byte_of_the_sample_may_be_wrong() {
    let sample = document(SAMPLE);
    each_damage(sample.store(), |_, _, store| {
        walk(store, sample.area());
        if is_sound(store, sample.area()) {
            round_trip(store, sample.area());
        }
    });
    each_damage(sample.area(), |_, _, area| {
        walk(sample.store(), area);
        if is_sound(sample.store(), area) {
            round_trip(sample.store(), area);
        }
    });
}

#[test]
fn a_store_that_is_cut_or_grown_is_unsound() {
    let sample = document(SAMPLE);
    for length in 0..sample.store().len() {
        assert!(
            !is_sound(&sample.store()[..length], sample.area()),
            "{length}"
        );
        walk(&sample.store()[..length], sample.area());
    }
    for length in 0..sample.area().len() {
        assert!(
            !is_sound(sample.store(), &sample.area()[..length]),
            "{length}"
        );
        walk(sample.store(), &sample.area()[..length]);
    }
    for byte in 0..=255 {
        let grown_store = [sample.store(), &[byte]].concat();
        assert!(!is_sound(&grown_store, sample.area()), "{byte}");
        let grown_area = [sample.area(), &[byte]].concat();
        assert!(!is_sound(sample.store(), &grown_area), "{byte}");
    }
}

#[test]
fn an_empty_store_and_an_outline_are_unsound() {
    assert!(!is_sound(&[], &[]));
    assert!(!is_sound(&[], b"x"));
    for text in [b"data_".as_slice(), b"data_t", SAMPLE] {
        let mut store = vec![0; 1000];
        let (length, _) = outline(FIRST, text, &mut store)
            .result()
            .expect("there is room");
        assert!(!is_sound(&store[..length], &[]));
        assert!(!is_sound(&store[..length], SAMPLE_AREA));
    }
}

#[test]
fn records_stand_in_their_order() {
    let row = document(b"data_ loop_ _ 1");
    let ends: Vec<usize> = row.records().map(|record| record.next).collect();
    assert_eq!(ends, [21, 42, 63, 98, 99]);
    let parts: Vec<&[u8]> = [0..21, 21..42, 42..63, 63..98, 98..99]
        .into_iter()
        .map(|range| &row.store()[range])
        .collect();
    let [block, opening, tag, number, end] = parts[..] else {
        panic!("five records");
    };
    assert!(is_sound(
        &[block, opening, tag, number, number, end].concat(),
        b""
    ));
    assert!(is_sound(&[block, opening, tag, end].concat(), b""));
    for wrong in [
        vec![opening, tag, number, end],
        vec![block, block],
        vec![block, opening, tag, number],
        vec![block, opening, number, end],
        vec![block, opening, tag, tag, number, end],
        vec![block, opening, tag, end, number],
        vec![block, tag, number],
        vec![block, number],
        vec![block, end],
    ] {
        assert!(!is_sound(&wrong.concat(), b""));
    }
}

/// Read back, the tag would be taken for another tag of the loop.
#[test]
fn no_tag_follows_a_loop_without_rows() {
    let single = document(b"data_ _ 1");
    let pair = &single.store()[21..];
    let empty_loop = document(b"data_ loop_ _");
    assert!(is_sound(empty_loop.store(), b""));
    assert!(!is_sound(&[empty_loop.store(), pair].concat(), b""));
    let full_loop = document(b"data_ loop_ _ 1");
    assert!(is_sound(&[full_loop.store(), pair].concat(), b""));
}

#[test]
fn contents_are_found_by_record_number() {
    let sample = document(SAMPLE);
    let found: Vec<Option<&[u8]>> = (0..10).map(|number| sample.content(number).ok()).collect();
    assert_eq!(
        found,
        [
            Some(&b"t"[..]),
            Some(b"a"),
            None,
            None,
            Some(b"b"),
            Some(b"c"),
            Some(b"x"),
            None,
            None,
            None
        ]
    );
    for number in [2, 3, 7, 8, 9, 10, 1 << 32, u64::MAX] {
        let refusal = sample.content(number).expect_err("no content");
        assert_eq!((refusal.number, refusal.place), (14, None));
    }
    assert_eq!(document(b"data_").content(0), Ok(&b""[..]));
}

#[test]
fn a_record_is_found_by_its_offset() {
    let sample = document(SAMPLE);
    let ends: Vec<usize> = sample.records().map(|record| record.next).collect();
    assert_eq!(ends, [21, 42, 81, 102, 123, 144, 165, 182, 183]);
    for at in [183, 184, 1 << 32, usize::MAX] {
        let refusal =
            record_at(FIRST, sample.store(), sample.area(), at).expect_err("past the end");
        assert_eq!((refusal.number, refusal.place), (14, None));
    }
    for at in 0..183 {
        walk(&sample.store()[at..], sample.area());
        if let Ok(record) = record_at(FIRST, sample.store(), sample.area(), at) {
            assert!(record.next > at && record.next <= 183, "{at}");
        }
    }
    assert!(record_at(FIRST, &[], &[], 0).is_err());
    assert!(record_at(FIRST, &sample.store()[..20], sample.area(), 0).is_err());
}

#[test]
fn a_kept_store_is_taken_up_again() {
    let sample = document(SAMPLE);
    let (store, area) = sample.clone().into_parts();
    assert_eq!(Document::from_parts(store.clone(), area), Ok(sample));
    let refused = Document::from_parts(store, b"tabc".to_vec());
    assert_eq!(refused.map_err(|refusal| refusal.number), Err(12));
    let empty = Document::from_parts(Vec::new(), Vec::new());
    assert_eq!(empty.map_err(|refusal| refusal.number), Err(12));
}

#[test]
fn names_stand_once_in_each_scope() {
    let checked = |text: &[u8]| document(text).check_names();
    assert_eq!(checked(b"data_x _a 1 _aA 2 loop_ _b _c"), Ok(()));
    assert_eq!(
        checked(b"data_x _a 1 save_f _a 2 save_ save_f _a 3 save_"),
        Ok(())
    );
    let twice = |text: &[u8]| {
        let refusal = checked(text).expect_err("a name stands twice");
        assert_eq!((refusal.number, refusal.place), (13, None));
        refusal.records
    };
    assert_eq!(twice(b"data_x _a 1 _b 2 _a 3"), Some((1, 5)));
    assert_eq!(twice(b"data_x loop_ _a _a 1 2"), Some((2, 3)));
    assert_eq!(twice(b"data_x _ 1 _ 2"), Some((1, 3)));
    assert_eq!(
        twice(b"data_x _a 1 save_f _b 2 _b 3 save_ _a 4"),
        Some((4, 6))
    );
    assert_eq!(twice(b"data_x _a 1 save_f _a 2 save_ _a 3"), Some((1, 7)));
    assert_eq!(twice(b"data_x _b 1 _a 2 _a 3 _b 4"), Some((3, 5)));
    assert_eq!(twice(b"data_x _a 1 _a 2 _a 3"), Some((1, 3)));
    assert_eq!(
        twice(b"data_x _Cell.length_a 1 _cell.length_a 2"),
        Some((1, 3))
    );
}

/// What the name check says of a text whose tags have these names, in their order.
fn checked_names(names: impl Iterator<Item = String>) -> Result<(), Option<(u64, u64)>> {
    let items = names.map(|name| format!("_{name} 1\n"));
    let text = String::from("data_x\n") + &items.collect::<String>();
    let checked = document(text.as_bytes()).check_names();
    checked.map_err(|refusal| refusal.records)
}

/// The record number of a tag: each has a value behind it, and the block stands before all.
fn tag_record(at: usize) -> u64 {
    2 * at as u64 + 1
}

/// Two names of one byte are the same if the bytes are, or are one letter in both cases.
#[test]
fn letters_alone_are_folded() {
    let cases = |capital: char, small: char| {
        capital.is_ascii_uppercase() && capital as u32 + 32 == small as u32
    };
    for first in '!'..='~' {
        for second in '!'..='~' {
            let same = first == second || cases(first, second) || cases(second, first);
            let expected = if same { Err(Some((1, 3))) } else { Ok(()) };
            let names = [first, second].map(String::from);
            assert_eq!(
                checked_names(names.into_iter()),
                expected,
                "{first} {second}"
            );
        }
    }
}

/// More names than the check's table holds at a time.
#[test]
fn letter_case_makes_no_difference_among_many_names() {
    let many = 40_000;
    let name = |at: usize| format!("Name{at}x");
    assert_eq!(checked_names((0..many).map(name)), Ok(()));
    for first in [0, 1, 8_191, 20_000, many - 1] {
        let names = (0..many).map(name).chain([format!("nAME{first}X")]);
        let repeated = Err(Some((tag_record(first), tag_record(many))));
        assert_eq!(checked_names(names), repeated);
    }
    // All names twice, the second time with another case at the end: half the text later, and at once.
    let half = many / 2;
    let small = |at: usize| format!("name{at}x");
    let capital = |at: usize| format!("name{at}X");
    let later = (0..half).map(small).chain((0..half).map(capital));
    assert_eq!(checked_names(later), Err(Some((1, tag_record(half)))));
    let at_once = (0..half).flat_map(|at| [small(at), capital(at)]);
    assert_eq!(checked_names(at_once), Err(Some((1, 3))));
}
