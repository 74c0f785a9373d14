//! The rules of the strict reading, sentence by sentence, and the smallest inputs of what was settled about
//! them. Every answer was worked out from the rules.

mod bytes;
mod numbers;
mod structure;
mod tokens;

use super::told::{told, Told};
use super::*;

fn read(text: &str) -> Vec<Record> {
    super::read(Reading::Strict, text.as_bytes())
        .unwrap_or_else(|stop| panic!("{text:?}: {stop:?}"))
}

fn refused(text: &str) -> Told {
    let answer = super::read(Reading::Strict, text.as_bytes());
    told(answer.expect_err(text))
}

fn kinds(text: &str) -> Vec<u8> {
    read(text).iter().map(|record| record.kind).collect()
}

/// The content of a record, empty where it has none.
fn content(record: &Record) -> String {
    match &record.body {
        Body::Content(content) => String::from_utf8_lossy(content).into_owned(),
        _ => String::new(),
    }
}

/// Kind, content and length of the value in a text that has one tag.
fn value_in(text: &str) -> (u8, String, usize) {
    let records = read(text);
    assert_eq!(records.len(), 3, "{text:?}");
    (records[2].kind, content(&records[2]), records[2].length)
}

/// Kind and content of a token where a value is due on the tag's line.
fn value(token: &str) -> (u8, String) {
    let (kind, content, length) = value_in(&format!("data_x _a {token}"));
    assert_eq!(length, token.len(), "{token:?}");
    (kind, content)
}

fn bare(word: &str) {
    assert_eq!(value(word), (10, String::from(word)));
}
