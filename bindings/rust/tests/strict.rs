//! Document 02's request Three, sentence by sentence, through `read`, `outline` and `Document`.

mod common;

use chuntarek::{Document, Kind, Reading, Reason};
use common::{document, is_refused, kinds, refusal, strict};

const STRICT: Reading = Reading::Strict;

fn refused(text: &str, number: u64, offset: u64, line: u64, column: u64, detail: u64) {
    let expected = refusal(number, offset, line, column, detail);
    is_refused(STRICT, text.as_bytes(), expected);
}

/// The kinds of a text that is read.
fn is_read(text: &str, expected: &[u64]) {
    assert_eq!(kinds(&strict(text.as_bytes())), expected, "{text:?}");
}

/// The kinds and texts of the values of a text, numbers as they are rendered.
fn values(text: &str) -> Vec<(Kind, String)> {
    let document = strict(text.as_bytes());
    let values = document.records().filter(|record| record.kind.is_value());
    values
        .map(|value| {
            let decimal = value.decimal.map(|decimal| decimal.to_string());
            let text = value.text().unwrap_or_default().to_string();
            (value.kind, decimal.unwrap_or(text))
        })
        .collect()
}

/// The one value of a text, behind its tag and a space.
fn is_value(word: &str, kind: Kind, text: &str) {
    let found = values(&format!("data_x _a {word}"));
    assert_eq!(found, [(kind, String::from(text))], "{word:?}");
}

/// What the rules refuse: a text, then number, offset, line, column and detail.
#[test]
fn texts_are_refused() {
    for (text, [number, offset, line, column, detail]) in [
        // A quote that is not closed.
        ("data_x _a 'b'#c", [6, 7, 1, 8, 4]),
        ("data_x _a 'b'c", [6, 7, 1, 8, 4]),
        ("data_x _a 'b'c\n'", [6, 7, 1, 8, 4]),
        ("data_x _a \"b' ", [6, 7, 1, 8, 4]),
        ("data_x loop_ _a 1 'b'c", [7, 18, 1, 19, 4]),
        ("data_x loop_ _a _b 1 'b'c", [5, 7, 1, 8, 1]),
        // 15 is met before anything of the next token, and so before the loop's 5.
        ("data_x loop_ _a _b\n;b\n;c", [15, 23, 3, 2, 0]),
        ("data_x loop_ _a _b\n;b\n;_", [15, 23, 3, 2, 0]),
        ("data_x loop_ _a _b\n;b\n; _c 1", [5, 7, 1, 8, 1]),
        // "Names are not empty": 17 as soon as one is met.
        ("data_", [17, 0, 1, 1, 0]),
        ("# c\n DATA_ _a 1", [17, 5, 2, 2, 0]),
        ("data_x data_", [17, 7, 1, 8, 0]),
        ("data_x save_ save_", [17, 7, 1, 8, 0]),
        ("data_x _", [17, 7, 1, 8, 0]),
        ("data_x _ 1", [17, 7, 1, 8, 0]),
        ("data_x loop_ _ 1", [17, 13, 1, 14, 0]),
        ("data_x loop_ _a _", [17, 16, 1, 17, 0]),
        ("data_x loop_ _a 1 _", [17, 18, 1, 19, 0]),
        ("data_x save_f _", [17, 14, 1, 15, 0]),
        // The rows are counted before what follows them is looked at.
        ("data_x loop_ _a _b 1 data_", [5, 7, 1, 8, 1]),
        ("data_x loop_ _a _b 1 _", [5, 7, 1, 8, 1]),
        ("data_x save_f loop_ _a _b 1 data_y", [5, 14, 1, 15, 1]),
        // "A loop without values is 6 at its last tag."
        ("data_x loop_ _a", [6, 13, 1, 14, 1]),
        ("data_x loop_ _a _b # c\n", [6, 16, 1, 17, 1]),
        ("data_x loop_ _a loop_ _b 1", [6, 13, 1, 14, 2]),
        ("data_x loop_ _a data_y", [6, 13, 1, 14, 2]),
        ("data_x loop_ _a $", [6, 13, 1, 14, 3]),
        ("data_x loop_ _a 'b", [6, 13, 1, 14, 4]),
        ("data_x loop_ _a\n;b", [6, 13, 1, 14, 5]),
        ("data_x save_f loop_ _a save_", [6, 20, 1, 21, 2]),
        ("data_x loop_", [8, 7, 1, 8, 0]),
        ("data_x loop_ 1", [8, 7, 1, 8, 0]),
        // "Failures inside a frame count."
        ("data_x save_f _a", [6, 14, 1, 15, 1]),
        ("data_x save_f _a save_", [6, 14, 1, 15, 2]),
        ("data_x save_f _a 'b save_", [6, 14, 1, 15, 4]),
        ("data_x save_f loop_ _a _b 1 save_", [5, 14, 1, 15, 1]),
        ("data_x save_f loop_ save_", [8, 14, 1, 15, 0]),
        ("data_x save_f 1 save_", [7, 14, 1, 15, 0]),
        ("data_x save_f loop_ _a 1 [ save_", [7, 25, 1, 26, 0]),
        // One holds here too: a 6 says why, and so does a 7 directly behind a loop of the block itself.
        ("data_x _a", [6, 7, 1, 8, 1]),
        ("data_x _a # c\n[", [6, 7, 1, 8, 3]),
        ("data_x loop_ _a 1 $", [7, 18, 1, 19, 3]),
        ("data_x loop_ _a 1 # c\n'b", [7, 22, 2, 1, 4]),
        ("data_x loop_ _a 1 save_f save_ $", [7, 31, 1, 32, 0]),
        ("data_x loop_ _a 1 data_y $", [7, 25, 1, 26, 0]),
    ] {
        refused(text, number, offset, line, column, detail);
    }
    let refusal = Document::read_as(STRICT, b"data_x loop_ _a 'b'c").expect_err("no row");
    assert_eq!(refusal.reason(), Some(Reason::OpenQuote));
}

// "A quote closes only before space, tab, a line end or the text's end."

#[test]
fn a_quote_closes_before_space_alone() {
    is_value("'O'Neill H St C'", Kind::Quoted, "O'Neill H St C");
    is_value("'a dog's life'", Kind::Quoted, "a dog's life");
    for end in ["", " ", "\t", "\n", "\r", "\r\n", "\n\r", " # c"] {
        is_value(&format!("'b'{end}"), Kind::Quoted, "b");
        is_value(&format!("\"b'\"{end}"), Kind::Quoted, "b'");
    }
    assert_eq!(
        values("data_x loop_ _a 'b' 'c'd' \"e\"f\"\t'g'"),
        ["b", "c'd", "e\"f", "g"].map(|text| (Kind::Quoted, text.into()))
    );
    refused("data_x _a 'b' c'", 7, 14, 1, 15, 0);
}

/// The opening mark never closes.
#[test]
fn marks_alone_are_texts() {
    is_value("''", Kind::Quoted, "");
    is_value("'''", Kind::Quoted, "'");
    is_value("''''", Kind::Quoted, "''");
    is_value("\"\"", Kind::Quoted, "");
    is_value("'\"'", Kind::Quoted, "\"");
    refused("data_x _a '", 6, 7, 1, 8, 4);
    refused("data_x _a ' ", 6, 7, 1, 8, 4);
}

// "Quoted values get kind 21, body as kind 10, the opening mark its first content byte, the closing one
// left out."

#[test]
fn quoted_values_keep_their_opening_mark() {
    let document = strict(b"data_x loop_ _a 'b' \"c\" '' d");
    let quoted: Vec<(u64, u64, Option<&[u8]>)> = document
        .records()
        .filter(|record| record.kind == Kind::Quoted)
        .map(|record| (record.kind.number(), record.length, record.content))
        .collect();
    assert_eq!(
        quoted,
        [
            (21, 3, Some(&b"'b"[..])),
            (21, 3, Some(b"\"c")),
            (21, 2, Some(b"'"))
        ]
    );
    assert_eq!(document.area(), b"xa'b\"c'd");
    assert_eq!(document.content(3), Ok(&b"'b"[..]));
    assert_eq!(kinds(&document), [1, 5, 6, 21, 21, 21, 10, 7]);
    // All seven that have a place have kind 10's length.
    assert_eq!(document.store().len(), 7 * 21 + 1);
}

// "A text field opens only in column 1; elsewhere `;` starts a bare word."

#[test]
fn a_text_field_opens_in_column_1() {
    for line_end in ["\n", "\r", "\r\n", "\n\r"] {
        let text = format!("data_x _a{line_end};b{line_end};");
        let value = (Kind::Multiline, format!("b{line_end}"));
        assert_eq!(values(&text), [value], "{text:?}");
    }
    is_value("\n;\n;", Kind::Multiline, "\n");
    is_value("\n;b;c\n ;\n;", Kind::Multiline, "b;c\n ;\n");
    refused("data_x _a\n;b", 6, 7, 1, 8, 5);
    refused("data_x _a\n;b\n ;", 6, 7, 1, 8, 5);
    refused("data_x loop_ _a 1\n;b", 7, 18, 2, 1, 5);
}

#[test]
fn a_semicolon_elsewhere_starts_a_bare_word() {
    is_value(";", Kind::Bare, ";");
    is_value(";b", Kind::Bare, ";b");
    is_value("\n ;b;", Kind::Bare, ";b;");
    is_value("\n\t;'b'", Kind::Bare, ";'b'");
    is_value("# c\n ;1.5", Kind::Bare, ";1.5");
    refused("data_x _a ;b\n;", 7, 13, 2, 1, 0);
    refused("data_x ;b", 7, 7, 1, 8, 0);
    refused("data_x\n;b\n;", 7, 7, 2, 1, 0);
}

// "Tokens need space between them": 15, at the second.

#[test]
fn behind_a_text_field_stands_space() {
    for end in ["", " ", "\n", "\r", "\t", "# c", " _b 1", "\n_b 1"] {
        let text = format!("data_x _a\n;b\n;{end}");
        assert_eq!(values(&text)[0].1, "b\n", "{text:?}");
    }
    refused("data_x _a\n;b\n;_c 1", 15, 14, 3, 2, 0);
    refused("data_x _a\n;b\n;data_y", 15, 14, 3, 2, 0);
    refused("data_x _a\n;b\n;;", 15, 14, 3, 2, 0);
    refused("data_x _a\n;b\n;'c'", 15, 14, 3, 2, 0);
    refused("data_x save_f _a\n;b\n;save_", 15, 21, 3, 2, 0);
}

// "A number is only what CIF 1.1 calls one; a value starting with `.` or `?` is its whole word."

#[test]
fn numbers_are_those_of_cif() {
    for (word, decimal) in [
        ("+.5e-3", "0.5e-3"),
        ("5.", "5"),
        ("-0", "-0"),
        ("007.010", "7.010"),
        ("1E5", "1e5"),
        (".5", "0.5"),
    ] {
        is_value(word, Kind::Number, decimal);
    }
    is_value("+1.50(2)", Kind::Uncertain, "1.50(2)");
    is_value("1e5(0)", Kind::Uncertain, "1e5(0)");
    for word in [
        "1e+",
        "1e",
        "1()",
        "1e(5)",
        "1e+()",
        "1234567890e+",
        "1234567890()",
        "1234567890x",
        "+",
    ] {
        is_value(word, Kind::Bare, word);
    }
}

#[test]
fn digit_limits_stay() {
    for word in [
        "1234567890",
        "0000000001",
        "1.0000000000000000000",
        "1(1234567890)",
        "1e1234567890",
    ] {
        refused(&format!("data_x _a {word}"), 9, 10, 1, 11, 0);
    }
    refused("data_x save_f _a 1234567890 save_", 9, 17, 1, 18, 0);
}

#[test]
fn a_point_or_a_question_mark_begins_a_word() {
    is_value(".", Kind::Inapplicable, "");
    is_value("?", Kind::Unknown, "");
    for word in [".x", "..", ".5.", "...", "?x", "??", "?'b'", ".#c"] {
        is_value(word, Kind::Bare, word);
    }
    assert_eq!(values("data_x loop_ _a .5. ?x").len(), 2);
}

// "`loop_`, `global_` and `stop_` are reserved only as whole words (a longer one is 7 as an item), `data_`
// and `save_` as prefixes."

#[test]
fn longer_words_than_loop_global_and_stop_are_values() {
    for word in [
        "loop_x",
        "Loop__a",
        "global_x",
        "stop_watch",
        "STOP_1",
        "loop_#c",
    ] {
        is_value(word, Kind::Bare, word);
        refused(&format!("data_x {word} 1"), 7, 7, 1, 8, 0);
        refused(&format!("data_x save_f {word}"), 7, 14, 1, 15, 0);
    }
    assert_eq!(values("data_x loop_ _a loop_x stop_x").len(), 2);
    is_read(
        "data_x LOOP_ _a 1 Loop_\n#c\n_b 2",
        &[1, 5, 6, 14, 7, 5, 6, 14, 7],
    );
}

#[test]
fn reserved_words_are_no_values() {
    for word in [
        "loop_", "Global_", "stop_", "data_", "data_y", "save_", "SAVE_x",
    ] {
        refused(&format!("data_x _a {word}"), 6, 7, 1, 8, 2);
    }
    refused("data_x stop_", 7, 7, 1, 8, 0);
    refused("data_x global_ _a 1", 7, 7, 1, 8, 0);
    refused("data_x loop_ _a 1 stop_", 7, 18, 1, 19, 2);
}

// "Names are not empty", and "tags 75 with the underscore, block and frame names 75": 17, at the token.

#[test]
fn names_have_at_most_75_bytes() {
    let (longest, long) = ("n".repeat(75), "n".repeat(76));
    let (longest_tag, long_tag) = (&longest[1..], &longest);
    is_read(
        &format!("data_{longest} _{longest_tag} 1 save_{longest} loop_ _{longest_tag} 1 save_"),
        &[1, 4, 14, 2, 5, 6, 14, 7, 3],
    );
    refused(&format!("data_{long}"), 17, 0, 1, 1, 0);
    refused(&format!("data_x data_{long}"), 17, 7, 1, 8, 0);
    refused(&format!("data_x save_{long} save_"), 17, 7, 1, 8, 0);
    refused(&format!("data_x _{long_tag} 1"), 17, 7, 1, 8, 0);
    refused(&format!("data_x loop_ _{long_tag} 1"), 17, 13, 1, 14, 0);
    // Where a value is wanted a tag of any length is none.
    refused("data_x _a _", 6, 7, 1, 8, 3);
    refused(&format!("data_x _a _{long_tag}"), 6, 7, 1, 8, 3);
}

// "Several blocks may follow", and several kind 1 records stand.

#[test]
fn several_blocks_are_read() {
    is_read("data_x data_x", &[1, 1]);
    is_read(
        "data_x _a 1 DATA_y loop_ _a 1 data_z save_f save_ data_w _a 'b'",
        &[1, 4, 14, 1, 5, 6, 14, 7, 1, 2, 3, 1, 4, 21],
    );
    let document = strict(b"data_x\n_a 1\r\ndata_y\n_a 2");
    let blocks: Vec<(Option<&str>, u64, u64)> = document
        .records()
        .filter(|record| record.kind == Kind::Block)
        .filter_map(|record| Some((record.text(), record.place?.offset, record.place?.line)))
        .collect();
    assert_eq!(blocks, [(Some("x"), 0, 1), (Some("y"), 13, 3)]);
    refused("_a 1 data_x", 3, 0, 1, 1, 0);
    refused("data_x _a 1 data_y 2", 7, 19, 1, 20, 0);
}

// Inside a frame "`data_`, a named `save_` or the end is 4".

#[test]
fn a_frame_is_closed_before_the_next_thing() {
    is_read("data_x save_f save_", &[1, 2, 3]);
    is_read(
        "data_x save_f _a 1 SAVE_ save_g save_",
        &[1, 2, 4, 14, 3, 2, 3],
    );
    let long = "n".repeat(76);
    for behind in [
        "", " _a 1", " data_y", " data_", " save_g", " save_#c", " # save_",
    ] {
        refused(&format!("data_x save_f{behind}"), 4, 7, 1, 8, 0);
    }
    refused(&format!("data_x save_f save_{long}"), 4, 7, 1, 8, 0);
    refused("data_x save_f save_ save_", 17, 20, 1, 21, 0);
}

// "No control byte (below 32, or 127) but tab, LF and CR is allowed": 18, there.

#[test]
fn control_bytes_are_refused_everywhere() {
    for byte in (0..32)
        .chain([127])
        .filter(|byte| ![9, 10, 13].contains(byte))
    {
        for (before, behind) in [
            ("", ""),
            ("data_", " _a 1"),
            ("data_x _a", "1"),
            ("data_x _a b", "c"),
            ("data_x _a 'b", "'"),
            ("data_x _a\n;b", "\n;"),
            ("data_x # c", ""),
            ("", " nothing else of this is CIF"),
        ] {
            let text = [before.as_bytes(), &[byte], behind.as_bytes()].concat();
            let line = 1 + before.matches('\n').count() as u64;
            let column = 1 + before.rsplit('\n').next().map_or(0, str::len) as u64;
            let expected = refusal(18, before.len() as u64, line, column, 0);
            is_refused(STRICT, &text, expected);
        }
    }
    is_read("data_x\t_a\t'b\tc'\r\n#\td", &[1, 4, 21]);
}

// "Lines have at most 2,048 bytes before their end": 16, its byte 2,049.

#[test]
fn a_line_has_at_most_2048_bytes() {
    let full = "#".repeat(2048);
    for line_end in ["\n", "\r", "\r\n", "\n\r"] {
        is_read(&format!("{full}{line_end}data_x{line_end}{full}"), &[1]);
        let text = format!("data_x{line_end}{full}#{line_end}");
        let offset = 6 + line_end.len() as u64 + 2048;
        refused(&text, 16, offset, 2, 2049, 0);
    }
    // Tabs, fields and the last line count too, and what is no CIF at all.
    refused(
        &format!("data_x\n{}", "\t".repeat(2049)),
        16,
        2055,
        2,
        2049,
        0,
    );
    refused(
        &format!("data_x _a\n;b\n{}\n;", "c".repeat(2049)),
        16,
        2061,
        3,
        2049,
        0,
    );
    refused(&"x".repeat(2049), 16, 2048, 1, 2049, 0);
    refused(&"x".repeat(2048), 3, 0, 1, 1, 0);
}

// "16 and 18 come after 2, earliest first and 16 before 18 at one byte; 15 and 17 in reading order."

#[test]
fn bytes_and_lines_are_judged_in_their_order() {
    let full = "#".repeat(2048);
    is_refused(STRICT, b"\x01\xff", refusal(2, 1, 1, 2, 0));
    let long = [full.as_bytes(), b"#\xff"].concat();
    is_refused(STRICT, &long, refusal(2, 2049, 1, 2050, 0));
    refused(&format!("{full}\x01"), 16, 2048, 1, 2049, 0);
    refused(&format!("{full}#\x01"), 16, 2048, 1, 2049, 0);
    refused(&format!("\x01\n{full}#"), 18, 0, 1, 1, 0);
    refused(&format!("#\n\x7f{full}"), 18, 2, 2, 1, 0);
    refused("data_x _ _a\n;b\n;c", 17, 7, 1, 8, 0);
    refused("data_x _a\n;b\n;c _ 1", 15, 14, 3, 2, 0);
    refused("data_x _a 1234567890 _ 1", 9, 10, 1, 11, 0);
    refused("data_x _ 1234567890", 17, 7, 1, 8, 0);
}

// "Both readings give equal records for each one-block text that the strict one accepts and that has no
// quote mark, semicolon" and the like.

#[test]
fn plain_texts_are_the_same_in_both_readings() {
    for text in [
        common::SAMPLE,
        b"data_x",
        b"#c\ndata_x save_f _a 1 save_ loop_ _b _c . ? .5 x[1] # 1e+ .x loop_x\n",
    ] {
        let (first, second) = (document(text), strict(text));
        assert_eq!(
            (first.store(), first.area()),
            (second.store(), second.area())
        );
        assert!(first.records().eq(second.records()));
        // The reading is part of a document, even so.
        assert_ne!(first, second);
        assert_eq!(
            [first.reading(), second.reading()],
            [Reading::First, STRICT]
        );
    }
}

/// What the first reading does with the same texts stays as it was.
#[test]
fn the_first_reading_knows_nothing_of_this() {
    let first = |text: &[u8], number, offset, line, column, detail| {
        let expected = refusal(number, offset, line, column, detail);
        is_refused(Reading::First, text, expected);
    };
    first(b"data_x _a 'O'Neill H St C'", 7, 13, 1, 14, 0);
    first(b"data_x data_y", 7, 7, 1, 8, 0);
    first(b"data_x _a ;b", 6, 7, 1, 8, 5);
    for text in [
        &b"data_"[..],
        b"data_x loop__a",
        b"data_x _a b\x01",
        b"data_x save_f _a save_",
        b"data_x _a\n;b\n;_c 1",
        &[b"data_x _a ", &[b'w'; 3000][..]].concat(),
    ] {
        assert!(
            Document::read(text).is_ok(),
            "{}",
            String::from_utf8_lossy(text)
        );
        assert!(Document::read_as(STRICT, text).is_err());
    }
    assert_eq!(
        kinds(&document(b"data_x loop_ _a 'b' \"c\"")),
        [1, 5, 6, 11, 12, 7]
    );
}

/// The rows of docs/DIFFERENCES.md, section 3: the kinds that are read, or number, offset and detail.
#[test]
fn the_page_on_differences_holds() {
    let found = |text: &str| match Document::read_as(STRICT, text.as_bytes()) {
        Ok(document) => Ok(kinds(&document)),
        Err(refusal) => {
            let offset = refusal.place.map(|place| place.offset);
            Err((refusal.number, offset.unwrap_or(0), refusal.detail))
        }
    };
    let read = |kinds: &[u64]| Ok(kinds.to_vec());
    for (row, text, expected) in [
        ("3.1", "data_x _a 'a'b'", read(&[1, 4, 21])),
        ("3.2", "data_x _a ;b\n;", Err((7, 13, 0))),
        ("3.3", "data_x _a ;b", read(&[1, 4, 10])),
        ("3.4", "data_x _a\n;b\n;", read(&[1, 4, 13])),
        ("3.5", "data_a data_b", read(&[1, 1])),
        ("3.6", "data_", Err((17, 0, 0))),
        ("3.6", "data_x save_ save_", Err((17, 7, 0))),
        ("3.6", "data_x _ 1", Err((17, 7, 0))),
        ("3.7", "data_x\x0c", Err((18, 6, 0))),
        ("3.7", "data_x _a\x0c1", Err((18, 9, 0))),
        ("3.7", "\x0cdata_x", Err((18, 0, 0))),
        ("3.8", "data_\x00", Err((18, 5, 0))),
        ("3.8", "data_x _a 'b\x0cc'", Err((18, 12, 0))),
        ("3.8", "data_x _a b\x01", Err((18, 11, 0))),
        ("3.9", "data_x loop__a 1", Err((7, 7, 0))),
        ("3.10", "data_x _a loop_x", read(&[1, 4, 10])),
        ("3.10", "data_x _a stop_x", read(&[1, 4, 10])),
        ("3.10", "data_x _a global_x", read(&[1, 4, 10])),
        ("3.11", "data_x save_f save_g", Err((4, 7, 0))),
        ("3.12", "data_x save_f save__a 1", Err((4, 7, 0))),
        ("3.13", "data_x save_f _a save_", Err((6, 14, 2))),
        ("3.13", "data_x save_f loop_ _a _b 1 save_", Err((5, 14, 1))),
        ("3.14", "data_x loop_ _a", Err((6, 13, 1))),
        ("3.15", "data_x loop_ _a ?x", read(&[1, 5, 6, 10, 7])),
        ("3.15", "data_x _a ?x", read(&[1, 4, 10])),
        ("3.16", "data_x loop_ _a .5.", read(&[1, 5, 6, 10, 7])),
        ("3.16", "data_x loop_ _a ...", read(&[1, 5, 6, 10, 7])),
        ("3.17", "data_x loop_ _a 'a''b'", read(&[1, 5, 6, 21, 7])),
        ("3.17", "data_x _a ''_b 2", Err((6, 7, 4))),
        ("3.17", "data_x _a\n;b\n;_c 2", Err((15, 14, 0))),
        ("3.18", "data_x _a 1e+", read(&[1, 4, 10])),
        ("3.18", "data_x _a 1()", read(&[1, 4, 10])),
        ("3.18", "data_x _a 1e(5)", read(&[1, 4, 10])),
        ("3.19", "data_x _a 'a'#c", Err((6, 7, 4))),
        ("3.19", "data_x _a .#c", read(&[1, 4, 10])),
        ("3.19", "data_x _a ?#c", read(&[1, 4, 10])),
        ("3.19", "data_x loop_#c\n_a 1", Err((7, 7, 0))),
        ("3.19", "data_x save_f save_#c", Err((4, 7, 0))),
        ("3.19", "data_x _a\n;b\n;#c", read(&[1, 4, 13])),
        ("3.20", "data_x _a 1 _A 2", read(&[1, 4, 14, 4, 14])),
        ("3.20", "data_x data_x", read(&[1, 1])),
        ("3.22", "data_x\n\r _a 'b", Err((6, 9, 4))),
        ("3.23", "data_x loop_ _a 1 stop_", Err((7, 18, 2))),
        ("still", "data_x _a 1234567890", Err((9, 10, 0))),
        ("still", "data_x save_f save_", read(&[1, 2, 3])),
        ("still", "", Err((3, 0, 0))),
        ("still", "#c", Err((3, 2, 0))),
        (
            "still",
            "data_x save_f save_ save_f save_",
            read(&[1, 2, 3, 2, 3]),
        ),
    ] {
        assert_eq!(found(text), expected, "{row} {text:?}");
    }
}
