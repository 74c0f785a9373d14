//! The texts for which both readings owe the same records: one block that the strict reading accepts,
//! with nothing in it that the two tell apart.

use crate::answer::{Body, Record};
use crate::model::{number, Number};
use crate::reading::Reading;

/// Document 02's class: no quote mark and no semicolon anywhere in the text, comments included, and no
/// word among its values that the first reading takes otherwise. `records` are the strict reading's.
pub fn is_owed_alike(text: &[u8], records: &[Record]) -> bool {
    let marks = text.iter().any(|byte| b"'\";".contains(byte));
    !marks && is_one_block(records) && !values(records).any(is_told_apart)
}

/// A wider class, in which marks and semicolons may stand where no value starts with one.
pub fn is_found_alike(records: &[Record]) -> bool {
    is_one_block(records) && !values(records).any(|value| is_marked(value) || is_told_apart(value))
}

fn is_one_block(records: &[Record]) -> bool {
    let blocks = records.iter().filter(|record| record.kind == 1);
    blocks.count() == 1
}

fn values(records: &[Record]) -> impl Iterator<Item = &Record> {
    records
        .iter()
        .filter(|record| matches!(record.kind, 8..=15 | 21))
}

/// A quoted value, or a bare word that starts with `;`. Text fields are the same in both readings.
fn is_marked(value: &Record) -> bool {
    value.kind == 21 || bare_word(value).starts_with(b";")
}

/// A bare word that is a number with an empty exponent or bracket, that is longer than the `.` or `?` it
/// starts with, or that starts with a word reserved only when whole.
fn is_told_apart(value: &Record) -> bool {
    let word = bare_word(value);
    let empty_part = !matches!(number(Reading::First, word), Number::No);
    empty_part || word.starts_with(b".") || word.starts_with(b"?") || starts_reserved(word)
}

fn starts_reserved(word: &[u8]) -> bool {
    ["loop_", "global_", "stop_"].iter().any(|keyword| {
        let start = word.get(..keyword.len());
        start.is_some_and(|start| start.eq_ignore_ascii_case(keyword.as_bytes()))
    })
}

/// The content of a bare value, which is not empty; empty for other kinds.
fn bare_word(value: &Record) -> &[u8] {
    match (value.kind, &value.body) {
        (10, Body::Content(word)) => word,
        _ => b"",
    }
}

#[cfg(test)]
mod tests {
    use super::*;
    use crate::{generate, model};

    fn strict(text: &str) -> Vec<Record> {
        model::read(Reading::Strict, text.as_bytes()).expect(text)
    }

    fn first_is_same(text: &str, records: &[Record]) -> bool {
        model::read(Reading::First, text.as_bytes()).is_ok_and(|first| first == records)
    }

    #[test]
    fn texts_that_are_owed_the_same_records() {
        for text in [
            "data_x",
            "#c\ndata_x _a 1.5(2) loop_ _b _c . ? .5 x[1] # 1e+ .x loop_x\n",
            "data_x save_f loop_ _a -1e5 save_ _1e+ (1) _.x loo",
        ] {
            let records = strict(text);
            assert!(is_owed_alike(text.as_bytes(), &records), "{text:?}");
            assert!(first_is_same(text, &records), "{text:?}");
        }
    }

    #[test]
    fn each_exclusion_has_a_text_that_needs_it() {
        for text in [
            "data_x data_y",
            "data_x _a 'b'",
            "data_x _a \"b\"",
            "data_x _a ;b",
            "data_x _a 1e+",
            "data_x _a 1e(5)",
            "data_x _a 1()",
            "data_x _a 1234567890e+",
            "data_x _a .x",
            "data_x loop_ _a ..",
            "data_x _a ?x",
            "data_x _a loop_x",
            "data_x _a Global_x",
            "data_x _a stop_1",
        ] {
            let records = strict(text);
            assert!(!is_owed_alike(text.as_bytes(), &records), "{text:?}");
            assert!(!is_found_alike(&records), "{text:?}");
            assert!(!first_is_same(text, &records), "{text:?}");
        }
    }

    #[test]
    fn the_wider_class_has_more_texts() {
        for text in [
            "data_x _a 1 # it's",
            "data_x _a b;c _d' 1",
            "data_x _a\n;b\n;",
            "data_x;# _a 1",
        ] {
            let records = strict(text);
            assert!(!is_owed_alike(text.as_bytes(), &records), "{text:?}");
            assert!(is_found_alike(&records), "{text:?}");
            assert!(first_is_same(text, &records), "{text:?}");
        }
    }

    #[test]
    fn the_classes_lie_in_one_another_and_are_not_rare() {
        let mut owed = 0;
        for number in 0..4000 {
            let text = generate::text(Reading::Strict, 18, number);
            let Ok(records) = model::read(Reading::Strict, &text) else {
                continue;
            };
            if is_owed_alike(&text, &records) {
                assert!(is_found_alike(&records));
                owed += 1;
            }
        }
        assert!(owed > 200, "{owed}");
    }
}
