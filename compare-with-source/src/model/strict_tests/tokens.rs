//! Quotes, fields, bare words, reserved words and the space between tokens.

use super::*;
use crate::stores;

#[test]
fn a_quote_closes_only_before_space_or_the_end() {
    for (token, opened) in [
        ("'b'", "'b"),
        ("\"b\"", "\"b"),
        ("''", "'"),
        ("'''", "''"),
        ("' '", "' "),
        ("'a dog's life'", "'a dog's life"),
        ("'O'Neill H St C'", "'O'Neill H St C"),
        ("'b''c'", "'b''c"),
        ("'b'#c'", "'b'#c"),
        ("\"a' b\"", "\"a' b"),
        ("'a\" b'", "'a\" b"),
        ("';'", "';"),
        ("'b\tc'", "'b\tc"),
    ] {
        assert_eq!(value(token), (21, String::from(opened)));
    }
    for behind in [" ", "\t", "\n", "\r", ""] {
        let text = format!("data_x _a 'b'{behind}");
        assert_eq!(value_in(&text), (21, String::from("'b"), 3), "{text:?}");
    }
    assert_eq!(refused("data_x _a 'a' b'"), (7, 14, 1, 15, 0));
}

#[test]
fn a_quote_without_such_a_mark_is_open() {
    for token in [
        "'", "'b", "'b'c", "'b'#c", "'b'\"", "'b\n'", "'b\r' ", "\"'", "'b'_c 1",
    ] {
        let text = format!("data_x _a {token}");
        assert_eq!(refused(&text), (6, 7, 1, 8, 4), "{text:?}");
    }
}

#[test]
fn a_field_opens_in_column_1_alone() {
    for (text, lines, length) in [
        ("data_x _a\n;b\n;", "b\n", 4),
        ("data_x _a\r;b\r;", "b\r", 4),
        ("data_x _a\n\r;b\r\n;\n", "b\r\n", 5),
        ("data_x _a # c\n;\n;\t", "\n", 3),
        ("data_x _a\n;;\n ;\n;", ";\n ;\n", 7),
    ] {
        assert_eq!(
            value_in(text),
            (13, String::from(lines), length),
            "{text:?}"
        );
    }
    assert_eq!(refused("data_x _a\n;b"), (6, 7, 1, 8, 5));
    assert_eq!(refused("data_x _a\n;b\n ;"), (6, 7, 1, 8, 5));
    assert_eq!(refused("data_x _a\n;"), (6, 7, 1, 8, 5));
}

#[test]
fn elsewhere_a_semicolon_starts_a_bare_word() {
    for word in [";", ";b", ";;", ";'b'", ";1", ";_b", ";loop_"] {
        bare(word);
    }
    assert_eq!(value_in("data_x _a\n\t;b\n"), (10, String::from(";b"), 2));
    // A bare word, then a field that is never closed where an item is due.
    assert_eq!(refused("data_x _a ;b\n;"), (7, 13, 2, 1, 0));
    assert_eq!(kinds("data_x loop_ _a ;b ;c"), [1, 5, 6, 10, 10, 7]);
}

#[test]
fn tokens_need_space_between_them() {
    assert_eq!(refused("data_x _a\n;b\n;c"), (15, 14, 3, 2, 0));
    for next in ["c", "_b 1", ";", "'", "data_y", "\"", ".", "[", "$"] {
        let text = format!("data_x _a\n;b\n;{next}");
        assert_eq!(refused(&text), (15, 14, 3, 2, 0), "{text:?}");
    }
    for apart in ["", " ", "\t", "\n", "\r", "#", "#c\n"] {
        assert_eq!(kinds(&format!("data_x _a\n;b\n;{apart}")), [1, 4, 13]);
    }
    assert_eq!(kinds("data_x _a\n;b\n;#c\n_b 1"), [1, 4, 13, 4, 14]);
    assert_eq!(refused("data_x _a\n;b\n; c"), (7, 15, 3, 3, 0));
    assert_eq!(kinds("data_x _a\n;b\n;\n_b\n;c\n;"), [1, 4, 13, 4, 13]);
}

#[test]
fn a_missing_space_is_met_before_anything_of_the_next_token() {
    assert_eq!(refused("data_x loop_ _a _b\n;b\n;c"), (15, 23, 3, 2, 0));
    assert_eq!(
        refused("data_x loop_ _a\n;b\n;1234567890"),
        (15, 20, 3, 2, 0)
    );
    assert_eq!(refused("data_x save_f _a\n;b\n;data_y"), (15, 21, 3, 2, 0));
    assert_eq!(refused("data_x _a\n;b\n;_"), (15, 14, 3, 2, 0));
    // No field starts where an item is expected, so nothing lacks space there.
    assert_eq!(refused("data_x\n;b\n;c"), (7, 7, 2, 1, 0));
    assert_eq!(refused("data_x save_f\n;b\n;c"), (7, 14, 2, 1, 0));
}

#[test]
fn a_value_starting_with_point_or_question_mark_is_its_whole_word() {
    assert_eq!(value("."), (8, String::new()));
    assert_eq!(value("?"), (9, String::new()));
    for word in [
        ".x", "?x", "..", "??", "?.", ".5.", ".#", "?'b'", ".e5", "?1",
    ] {
        bare(word);
    }
    assert_eq!(
        kinds("data_x loop_ _a .5. . ? .5"),
        [1, 5, 6, 10, 8, 9, 14, 7]
    );
}

#[test]
fn reserved_words_where_a_value_is_due() {
    for word in [
        "loop_", "global_", "stop_", "Loop_", "STOP_", "data_", "data_y", "DATA_y", "save_",
        "save_x", "Save_1", "data_'b'",
    ] {
        let text = format!("data_x _a {word}");
        assert_eq!(refused(&text), (6, 7, 1, 8, 2), "{text:?}");
    }
    for word in [
        "loop_x", "global_x", "stop_x", "LOOP_1", "loop__a", "loop_#c", "dat_", "loop", "xdata_",
    ] {
        bare(word);
    }
    assert_eq!(kinds("data_x loop_ _a loop_x"), [1, 5, 6, 10, 7]);
}

#[test]
fn longer_words_are_no_items() {
    for word in [
        "loop_x", "loop__a", "loop_#c", "global_x", "stop_x", "stop_", "global_", "STOP_", "x",
        "1", "'b'",
    ] {
        let text = format!("data_x {word} _a 1");
        assert_eq!(refused(&text), (7, 7, 1, 8, 0), "{text:?}");
    }
    assert_eq!(kinds("data_x LOOP_ _a 1"), [1, 5, 6, 14, 7]);
}

#[test]
fn comments_start_where_a_token_may() {
    assert_eq!(kinds("#c\ndata_x#c\n#c\n_a#c 1#c #c"), [1, 4, 10]);
    assert_eq!(kinds("#c\rdata_x #c\r_a 1"), [1, 4, 14]);
    assert_eq!(content(&read("data_x#c")[0]), "x#c");
    assert_eq!(kinds("data_x _a '#' _b\t#'\n1"), [1, 4, 21, 4, 14]);
}

#[test]
fn quoted_values_are_kept_as_bare_ones_with_their_opening_mark() {
    let records = read("data_x _a 'b c'\n_b \"\"");
    let listed: Vec<_> = records
        .iter()
        .map(|record| {
            (
                record.kind,
                record.place.offset,
                record.length,
                record.place.line,
                record.place.column,
            )
        })
        .collect();
    assert_eq!(
        listed,
        [
            (1, 0, 6, 1, 1),
            (4, 7, 2, 1, 8),
            (21, 10, 5, 1, 11),
            (4, 16, 2, 2, 1),
            (21, 19, 2, 2, 4),
        ]
    );
    let (store, area) = stores::encode(&records);
    assert_eq!((store.len(), area.as_slice()), (5 * 21, &b"xa'b cb\""[..]));
    // Kind, offset, length, line, column and the area's offset, as a bare value has them.
    let third = [
        21, 10, 0, 0, 0, 5, 0, 0, 0, 1, 0, 0, 0, 11, 0, 0, 0, 2, 0, 0, 0,
    ];
    assert_eq!(store[42..63], third);
    assert_eq!(stores::decode(&store, &area), Some(records));
}
