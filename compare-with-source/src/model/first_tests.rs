//! The readings of document 01, and the reasons that document 02 adds to them.

use super::told::{told, Told};
use super::*;
use crate::answer::Decimal;
use crate::stores;

fn read(text: &[u8]) -> Answer {
    super::read(Reading::First, text)
}

fn number(word: &str) -> Number {
    super::number(Reading::First, word.as_bytes())
}

fn refused(text: &str) -> Told {
    told(read(text.as_bytes()).expect_err(text))
}

fn kinds(text: &str) -> Vec<u8> {
    let records = read(text.as_bytes()).expect(text);
    records.iter().map(|record| record.kind).collect()
}

fn decimal(word: &str) -> Option<Decimal> {
    match number(word) {
        Number::Within(decimal) => Some(decimal),
        _ => None,
    }
}

#[test]
fn the_refusals_of_document_01() {
    assert_eq!(refused(""), (3, 0, 1, 1, 0));
    assert_eq!(refused("data_x data_y"), (7, 7, 1, 8, 0));
    assert_eq!(refused("data_x loop_"), (8, 7, 1, 8, 0));
    assert_eq!(refused("data_x loop_ _a _b 1 2 3"), (5, 7, 1, 8, 1));
    assert_eq!(refused("data_x _a 'b"), (6, 7, 1, 8, 4));
    assert_eq!(refused("data_x loop_ _a 1 'b"), (7, 18, 1, 19, 4));
    assert_eq!(refused("data_x save_f save_g"), (7, 19, 1, 20, 0));
    assert_eq!(refused("data_x _a .5."), (7, 11, 1, 12, 0));
    assert_eq!(refused("data_x\x0c"), (7, 6, 1, 7, 0));
    assert_eq!(refused("data_x _a 1234567890"), (9, 10, 1, 11, 0));
    assert_eq!(refused("data_x \u{e9}"), (2, 7, 1, 8, 0));
    assert_eq!(refused("data_x save_f _a 1"), (4, 7, 1, 8, 0));
}

/// The detail alone, of a refusal by this number.
fn detail(text: &str, number: u8) -> usize {
    let (refused_by, _, _, _, detail) = refused(text);
    assert_eq!(refused_by, number, "{text:?}");
    detail
}

#[test]
fn a_tag_without_a_value_has_the_reason() {
    for (behind, reason) in [
        ("", 1),
        (" \n", 1),
        (" # b", 1),
        (" # b\n\t[", 3),
        (" stop_x", 2),
        (" DATA_", 2),
        (" Global_ 1", 2),
        (" loop_ _b 1", 2),
        (" save_", 2),
        (" _b 1", 3),
        (" $", 3),
        (" ]", 3),
        ("\x0c1", 3),
        (" \x00", 3),
        (" \x0b", 3),
        (" \x7f", 3),
        (" 'b", 4),
        (" 'b\n'", 4),
        (" \"b'\r\"", 4),
        (" '", 4),
        (" ;", 5),
        (" ;b", 5),
        ("\n;b\n ;\n", 5),
    ] {
        assert_eq!(
            detail(&format!("data_x _a{behind}"), 6),
            reason,
            "{behind:?}"
        );
    }
}

#[test]
fn no_item_directly_behind_a_loop_has_the_reason() {
    for (behind, reason) in [
        ("1 'b", 4),
        ("'b", 4),
        ("1 data_y", 2),
        ("1 Stop_", 2),
        ("global_x", 2),
        ("1 # b\n[", 3),
        ("$", 3),
        ("1\x0c", 3),
        ("1 ;b", 5),
        ("1 save_f save_ loop_ _a ]", 3),
    ] {
        let text = format!("data_x loop_ _a {behind}");
        assert_eq!(detail(&text, 7), reason, "{text:?}");
    }
}

#[test]
fn the_inputs_that_settle_the_reasons() {
    assert_eq!(refused("data_x _a stop_x"), (6, 7, 1, 8, 2));
    assert_eq!(refused("data_x _a _"), (6, 7, 1, 8, 3));
    assert_eq!(refused("data_x _a\x0c"), (6, 7, 1, 8, 3));
    assert_eq!(refused("data_x loop_ _a 'b"), (7, 16, 1, 17, 4));
    assert_eq!(refused("data_x loop_ _a 1 data_y"), (7, 18, 1, 19, 2));
}

#[test]
fn no_item_elsewhere_has_no_reason() {
    for text in [
        "data_x 'b",
        "data_x\x0c",
        "data_x _a 1 2",
        "data_x _a 1 'b",
        "data_x loop_ _a 1 save_f save_ $",
        "data_x loop_ _a 1 save_f loop_ _a 1 save_ 'b",
        "data_x save_f loop_ _a 1 save_ [",
        "data_x loop_ _a 1 _b 2 $",
        "data_x loop_ _a 1 _b 2 3",
    ] {
        assert_eq!(detail(text, 7), 0, "{text:?}");
    }
}

#[test]
fn other_refusals_keep_their_details() {
    assert_eq!(detail("data_x loop_ _a _b 1 'b", 5), 1);
    assert_eq!(detail("data_x save_f _a 'b", 4), 0);
    assert_eq!(detail("data_x loop_ _a 1 loop_ 'b", 8), 0);
    assert_eq!(detail("data_x loop_ _a 1 _b 1234567890", 9), 0);
}

#[test]
fn the_readings_of_document_01() {
    assert_eq!(kinds("data_"), [1]);
    assert_eq!(kinds("data_x loop_ _a"), [1, 5, 6, 7]);
    assert_eq!(kinds("data_x save_f _a save_"), [1, 2, 3]);
    assert_eq!(kinds("data_x loop_ _a .5."), [1, 5, 6, 8, 14, 7]);
    assert_eq!(kinds("data_x _a 1()"), [1, 4, 15]);
    assert_eq!(kinds("data_x _a 1e"), [1, 4, 10]);
    assert_eq!(kinds("data_x _a 1234567890x"), [1, 4, 10]);
}

#[test]
fn the_words_of_document_01() {
    assert_eq!(decimal("1e+").map(|parts| parts.integer), Some(1));
    assert_eq!(decimal("1()").and_then(|parts| parts.uncertainty), Some(0));
    assert_eq!(
        decimal("1e(5)").and_then(|parts| parts.uncertainty),
        Some(5)
    );
    assert_eq!(decimal("123456789").map(|parts| parts.fraction), Some(0));
    for word in ["1e", ".", "", "+", "1(2", "1(2)3", "1e5.0", "--1", "e5"] {
        assert!(matches!(number(word), Number::No), "{word}");
    }
    for word in ["0000000000", "1e0000000000", "1(0000000000)"] {
        assert!(matches!(number(word), Number::OverLimits), "{word}");
    }
}

#[test]
fn the_sample_of_document_01() {
    let records = read(b"data_t\n_a 1.50(2)\nloop_ _b _c\nx ?\n").expect("the sample is read");
    let (store, area) = stores::encode(&records);
    assert_eq!((store.len(), area.as_slice()), (183, &b"tabcx"[..]));
    let listed: Vec<_> = records
        .iter()
        .map(|record| {
            let place = record.place;
            [
                record.kind as usize,
                place.offset,
                record.length,
                place.line,
                place.column,
            ]
        })
        .collect();
    assert_eq!(
        listed,
        [
            [1, 0, 6, 1, 1],
            [4, 7, 2, 2, 1],
            [15, 10, 7, 2, 4],
            [5, 18, 5, 3, 1],
            [6, 24, 2, 3, 7],
            [6, 27, 2, 3, 10],
            [10, 30, 1, 4, 1],
            [9, 32, 1, 4, 3],
            [7, 0, 0, 0, 0],
        ]
    );
    assert_eq!(stores::encode_outline(&records).len(), 8 * 17 + 1);
}

#[test]
fn sizes_of_document_01() {
    let (store, area) = stores::encode(&read(b"data_").expect("an empty name is read"));
    assert_eq!((store.len(), area.len()), (21, 0));
    let text = b"data_ save_ loop_ _ _ 1 save_";
    let (store, _) = stores::encode(&read(text).expect("the item is dropped"));
    assert_eq!(store.len(), 59);
}

#[test]
fn lines_are_counted_greedily() {
    assert_eq!(refused("\r\n\n\r\r x"), (3, 6, 4, 2, 0));
    assert_eq!(refused("\n\r\n;"), (3, 3, 3, 1, 0));
}

#[test]
fn the_limit_is_judged_first() {
    let mut text = vec![b' '; TEXT_LIMIT + 1];
    text[5] = 200;
    let refusal = read(&text).expect_err("it is too long");
    assert_eq!((refusal.number, refusal.place), (1, Place::NONE));
    text.pop();
    assert_eq!(read(&text).expect_err("it is not ASCII").number, 2);
}
