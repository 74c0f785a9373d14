//! Document 01's readings and rules of reading, through `read`, `outline` and `Document`.

mod common;

use chuntarek::{Decimal, Document, Kind, Reading, Reason, Refusal};
use common::{document, is_refused, kinds, refusal};

fn refused(text: &[u8], number: u64, offset: u64, line: u64, column: u64, detail: u64) {
    let expected = refusal(number, offset, line, column, detail);
    is_refused(Reading::First, text, expected);
}

/// The value of the one tag of a text: its kind, content and decimal.
fn value(word: &str) -> (Kind, String, String) {
    let document = document(format!("data_x _a {word}").as_bytes());
    let record = document.records().nth(2).expect("a value");
    let decimal = record.decimal.map(|decimal| decimal.to_string());
    (
        record.kind,
        record.text().unwrap_or_default().to_string(),
        decimal.unwrap_or_default(),
    )
}

fn number(word: &str, kind: Kind, decimal: &str) {
    assert_eq!(value(word), (kind, String::new(), decimal.into()), "{word}");
}

fn text(word: &str, kind: Kind, content: &str) {
    assert_eq!(value(word), (kind, content.into(), String::new()), "{word}");
}

#[test]
fn the_refusals_of_document_01() {
    refused(b"", 3, 0, 1, 1, 0);
    refused(b"data_x data_y", 7, 7, 1, 8, 0);
    refused(b"data_x loop_", 8, 7, 1, 8, 0);
    refused(b"data_x loop_ _a _b 1 2 3", 5, 7, 1, 8, 1);
    refused(b"data_x _a 'b", 6, 7, 1, 8, 4);
    refused(b"data_x loop_ _a 1 'b", 7, 18, 1, 19, 4);
    refused(b"data_x save_f save_g", 7, 19, 1, 20, 0);
    refused(b"data_x _a .5.", 7, 11, 1, 12, 0);
    refused(b"data_x\x0c", 7, 6, 1, 7, 0);
    refused(b"data_x _a 1234567890", 9, 10, 1, 11, 0);
}

/// The refusal of a text by this number, and its reason.
fn reason(text: &str, number: u64) -> Option<Reason> {
    let refusal: Refusal = Document::read(text.as_bytes()).expect_err(text);
    assert_eq!(refusal.number, number, "{text:?}");
    let told = refusal.reason();
    let detail = told.map_or(0, Reason::number);
    assert_eq!(refusal.detail, detail, "{text:?}");
    told
}

#[test]
fn a_tag_without_a_value_says_why() {
    refused(b"data_x _a", 6, 7, 1, 8, 1);
    refused(b"data_x _a stop_x", 6, 7, 1, 8, 2);
    refused(b"data_x _a _b 1", 6, 7, 1, 8, 3);
    refused(b"data_x _a\x0c1", 6, 7, 1, 8, 3);
    refused(b"data_x _a 'b", 6, 7, 1, 8, 4);
    refused(b"data_x _a ;b", 6, 7, 1, 8, 5);
    for (behind, why) in [
        ("", Reason::TextEnds),
        (" \t\r\n", Reason::TextEnds),
        (" # [\n#", Reason::TextEnds),
        (" data_y", Reason::ReservedWord),
        (" # b\nGLOBAL_", Reason::ReservedWord),
        (" Loop_", Reason::ReservedWord),
        (" save_", Reason::ReservedWord),
        (" stop_watch", Reason::ReservedWord),
        (" _", Reason::StartsNoValue),
        (" $b", Reason::StartsNoValue),
        (" [", Reason::StartsNoValue),
        ("\n]", Reason::StartsNoValue),
        (" \x0c", Reason::StartsNoValue),
        (" \x00", Reason::StartsNoValue),
        (" \x7f", Reason::StartsNoValue),
        (" '", Reason::OpenQuote),
        (" \"b'\n\"", Reason::OpenQuote),
        (" 'b\r'", Reason::OpenQuote),
        (" ;", Reason::OpenField),
        ("\n;b\n ;", Reason::OpenField),
        ("\n;b;", Reason::OpenField),
    ] {
        assert_eq!(reason(&format!("data_x _a{behind}"), 6), Some(why));
    }
}

#[test]
fn no_item_directly_behind_a_loop_says_why_its_values_end() {
    refused(b"data_x loop_ _a 'b", 7, 16, 1, 17, 4);
    refused(b"data_x loop_ _a 1 data_y", 7, 18, 1, 19, 2);
    for (behind, why) in [
        ("1 Stop_", Reason::ReservedWord),
        ("global_x", Reason::ReservedWord),
        ("1 # c\n$", Reason::StartsNoValue),
        ("[", Reason::StartsNoValue),
        ("1\x0c", Reason::StartsNoValue),
        ("1 \"b\n\"", Reason::OpenQuote),
        ("1 ;b\n", Reason::OpenField),
        (";", Reason::OpenField),
        ("1 loop_ _b ]", Reason::StartsNoValue),
        ("1 save_f save_ loop_ _b 'c", Reason::OpenQuote),
    ] {
        assert_eq!(reason(&format!("data_x loop_ _a {behind}"), 7), Some(why));
    }
}

#[test]
fn no_item_elsewhere_has_no_reason() {
    refused(b"data_x loop_ _a 1 save_f save_ $", 7, 31, 1, 32, 0);
    refused(b"data_x loop_ _a 1 _b 2 $", 7, 23, 1, 24, 0);
    refused(b"data_x loop_ _a 1 _b 2 3", 7, 23, 1, 24, 0);
    refused(b"data_x _a 1 2", 7, 12, 1, 13, 0);
    for text in [
        "data_x 'b",
        "data_x [",
        "data_x _a 1 'b",
        "data_x save_f save_ ;",
        "data_x save_f loop_ _a 1 save_ [",
        "data_x loop_ _a 1 save_f loop_ _b 1 save_ stop_",
    ] {
        assert_eq!(reason(text, 7), None);
    }
}

/// Inside a frame nothing but 4, 8 and 9 comes out, and a 5 keeps its remainder.
#[test]
fn other_refusals_have_no_reason() {
    refused(b"data_x save_f _a 'b", 4, 7, 1, 8, 0);
    refused(b"data_x save_f loop_ _a 'b", 4, 7, 1, 8, 0);
    refused(b"data_x loop_ _a _b _c 1 2 'b", 5, 7, 1, 8, 2);
    refused(b"data_x loop_ 'b", 8, 7, 1, 8, 0);
    assert_eq!(reason("data_x save_f _a 'b", 4), None);
    let ragged = Document::read(b"data_x loop_ _a _b 1").expect_err("a value is left over");
    assert_eq!((ragged.detail, ragged.reason()), (1, None));
}

#[test]
fn the_readings_of_document_01() {
    assert_eq!(document(b"data_").store().len(), 21);
    assert_eq!(document(b"data_").area(), b"");
    assert_eq!(kinds(&document(b"data_x loop_ _a")), [1, 5, 6, 7]);
    assert_eq!(kinds(&document(b"data_x save_f _a save_")), [1, 2, 3]);
    let loose = document(b"data_x loop_ _a .5.");
    assert_eq!(kinds(&loose), [1, 5, 6, 8, 14, 7]);
    let five = loose.records().nth(4).and_then(|record| record.decimal);
    assert_eq!(five.map(|five| five.to_string()), Some("5".into()));
}

#[test]
fn the_words_of_document_01() {
    number("1e+", Kind::Number, "1");
    number("1()", Kind::Uncertain, "1(0)");
    number("1e(5)", Kind::Uncertain, "1(5)");
    text("1e", Kind::Bare, "1e");
    number("123456789", Kind::Number, "123456789");
    text("1234567890x", Kind::Bare, "1234567890x");
}

#[test]
fn numbers_keep_every_digit() {
    number("+1.50(2)", Kind::Uncertain, "1.50(2)");
    number("-.5", Kind::Number, "-0.5");
    number("5.", Kind::Number, "5");
    number("007.010", Kind::Number, "7.010");
    number("1E-10", Kind::Number, "1e-10");
    number("0.000000000000000001", Kind::Number, "0.000000000000000001");
    number(
        "1e-999999999(999999999)",
        Kind::Uncertain,
        "1e-999999999(999999999)",
    );
    number("-0e-0", Kind::Number, "-0");
}

#[test]
fn the_parts_of_a_number_are_told_apart() {
    let document = document(b"data_x _a -12.034e-5(67)");
    let decimal = document.records().nth(2).and_then(|record| record.decimal);
    assert_eq!(
        decimal,
        Some(Decimal {
            minus: true,
            integer: 12,
            fraction: 34,
            digits: 3,
            exponent: -5,
            uncertainty: Some(67),
        })
    );
}

#[test]
fn digit_limits_count_leading_zeros() {
    for word in [
        "0000000001",
        "-1234567890.",
        "1.0000000000000000000",
        ".0000000000000000000",
        "1e0000000001",
        "1(1234567890)",
    ] {
        refused(format!("data_x _a {word}").as_bytes(), 9, 10, 1, 11, 0);
    }
}

#[test]
fn texts_lose_their_marks() {
    text("'a b'", Kind::SingleQuoted, "a b");
    text("\"it's\"", Kind::DoubleQuoted, "it's");
    text("''", Kind::SingleQuoted, "");
    text(";a\nb;c\n;", Kind::Multiline, "a\nb;c\n");
    text("x;y'z", Kind::Bare, "x;y'z");
    text(".", Kind::Inapplicable, "");
    text("?", Kind::Unknown, "");
}

#[test]
fn a_quote_closes_at_the_next_mark() {
    refused(b"data_x _a 'a dog's life'", 7, 17, 1, 18, 0);
}

#[test]
fn keywords_match_in_any_letter_case_and_as_prefixes() {
    assert_eq!(
        kinds(&document(b"DATA_x SAVE_f sAvE_ LOOP__a 1")),
        [1, 2, 3, 5, 6, 14, 7]
    );
    refused(b"data_x _a Loop_x", 6, 7, 1, 8, 2);
    refused(b"data_x _a global_", 6, 7, 1, 8, 2);
    refused(b"data_x _a stop_", 6, 7, 1, 8, 2);
}

#[test]
fn a_failing_item_in_a_frame_is_dropped() {
    assert_eq!(document(b"data_ save_ loop_ _ _ 1 save_").store().len(), 59);
    assert_eq!(
        kinds(&document(b"data_x save_f _a 1 _b save_")),
        [1, 2, 4, 14, 3]
    );
    refused(b"data_x save_f _a 1", 4, 7, 1, 8, 0);
    refused(b"data_x save_f loop_ save_", 8, 14, 1, 15, 0);
    refused(b"data_x save_f _a 1234567890 save_", 9, 17, 1, 18, 0);
}

#[test]
fn line_ends_are_taken_greedily_from_the_left() {
    refused(b"data_x\r\n_a", 6, 8, 2, 1, 1);
    refused(b"data_x\n\r_a", 6, 8, 2, 1, 1);
    refused(b"data_x\r_a", 6, 7, 2, 1, 1);
    refused(b"data_x\n\n_a", 6, 8, 3, 1, 1);
    refused(b"data_x\n\r\n_a", 6, 9, 3, 1, 1);
    refused(b"data_x\r\r\n\n _a", 6, 11, 4, 2, 1);
}

#[test]
fn records_have_places_over_every_line_end() {
    let document = document(b"data_x\n\n_a\r\n1 _b\n\r\n?");
    let places: Vec<(u64, u64, u64)> = document
        .records()
        .filter_map(|record| record.place)
        .map(|place| (place.offset, place.line, place.column))
        .collect();
    assert_eq!(
        places,
        [(0, 1, 1), (8, 3, 1), (12, 4, 1), (14, 4, 3), (19, 6, 1)]
    );
}

#[test]
fn bytes_of_128_and_more_are_refused_first() {
    refused(b"x \x80", 2, 2, 1, 3, 0);
    refused(b"data_x\n_a '\xc3\xa9'", 2, 11, 2, 5, 0);
    refused(b"\xff", 2, 0, 1, 1, 0);
    assert_eq!(kinds(&document(b"data_x _a \x7e\x7f")), [1, 4, 10]);
}

#[test]
fn comments_stand_where_space_may() {
    assert_eq!(kinds(&document(b"#a\ndata_x #b\n_c #d\r1 #e")), [1, 4, 14]);
    let name = document(b"data_x#c");
    assert_eq!(name.content(0), Ok(&b"x#c"[..]));
    refused(b" # only a comment", 3, 17, 1, 18, 0);
}
