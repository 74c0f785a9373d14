//! What is refused before anything is read: length, bytes and lines.

use super::*;

#[test]
fn no_control_byte_but_tab_and_line_ends() {
    for byte in (0..32).chain([127]).map(char::from) {
        if !"\t\n\r".contains(byte) {
            assert_eq!(refused(&format!("data_x _a 1 {byte}")), (18, 12, 1, 13, 0));
        }
    }
    assert_eq!(refused("\x0cdata_x"), (18, 0, 1, 1, 0));
    assert_eq!(refused("data_x _a\x0c1"), (18, 9, 1, 10, 0));
    assert_eq!(refused("data_x #\x7f"), (18, 8, 1, 9, 0));
    assert_eq!(refused("data_x _a '\x01'"), (18, 11, 1, 12, 0));
    assert_eq!(refused("data_x _a\n;b\x00\n;"), (18, 12, 2, 3, 0));
    // Whatever else is wrong with the text stands back, but not a byte that is no ASCII.
    assert_eq!(refused("data_x [ _ '\x0b"), (18, 12, 1, 13, 0));
    assert_eq!(refused("x\x01"), (18, 1, 1, 2, 0));
    assert_eq!(refused("\x01\u{e9}"), (2, 1, 1, 2, 0));
}

#[test]
fn no_line_of_more_than_2048_bytes() {
    let line = |start: &str, length: usize, end: &str| {
        let letters = "c".repeat(length - start.len() - end.len());
        format!("{start}{letters}{end}")
    };
    for (before, start, end) in [
        ("", "data_x #", ""),
        ("data_x\n", "#", ""),
        ("data_x _a\r\n", "", ""),
        ("data_x _a\n\r", "\t", ""),
        ("data_x _a\r", "'", "'"),
        ("data_x _a\n", ";", "\n;"),
        ("data_x _a\n;\n", "", "\n;"),
        ("data_x\r", "# \t", ""),
    ] {
        let behind = end.len() - end.trim_end_matches(['\n', ';']).len();
        read(&format!(
            "{before}{}",
            line(start, LONGEST_LINE + behind, end)
        ));
        let text = format!("{before}{}", line(start, LONGEST_LINE + 1 + behind, end));
        let lines = if before.contains(";\n") {
            3
        } else {
            1 + usize::from(!before.is_empty())
        };
        assert_eq!(refused(&text), (16, before.len() + 2048, lines, 2049, 0));
    }
}

#[test]
fn the_earliest_of_a_long_line_and_a_control_byte() {
    let spaces = |length: usize| " ".repeat(length);
    assert_eq!(
        refused(&format!("{}\x01", spaces(2047))),
        (18, 2047, 1, 2048, 0)
    );
    assert_eq!(
        refused(&format!("{}\x01", spaces(2048))),
        (16, 2048, 1, 2049, 0)
    );
    assert_eq!(
        refused(&format!("{}\x01", spaces(2049))),
        (16, 2048, 1, 2049, 0)
    );
    assert_eq!(refused(&format!("\x01{}", spaces(2049))), (18, 0, 1, 1, 0));
    assert_eq!(
        refused(&format!("{}\n\x01", spaces(2048))),
        (18, 2049, 2, 1, 0)
    );
    assert_eq!(
        refused(&format!("\n{}\n\x01", spaces(2049))),
        (16, 2049, 2, 2049, 0)
    );
    assert_eq!(
        refused(&format!("{}\u{e9}", spaces(2049))),
        (2, 2049, 1, 2050, 0)
    );
}

#[test]
fn the_limit_is_judged_first() {
    let mut text = vec![b' '; TEXT_LIMIT + 1];
    text[5] = 1;
    let refusal = crate::model::read(Reading::Strict, &text).expect_err("it is too long");
    assert_eq!((refusal.number, refusal.place), (1, Place::NONE));
    text.pop();
    let refusal = crate::model::read(Reading::Strict, &text).expect_err("it has a control byte");
    assert_eq!((refusal.number, refusal.place.offset), (18, 5));
}
