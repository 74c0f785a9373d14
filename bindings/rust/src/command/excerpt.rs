//! The line of a text that a place is on, with a mark below the place.

use chuntarek::Place;

use super::message::printable;

/// The most characters of a line that are shown, and how many of them stand before the place.
const WIDTH: usize = 96;
const BEFORE: usize = 64;

/// The most characters of a start.
const START: usize = 40;

const INDENT: &str = "    ";
const CUT: &str = "...";

/// Two lines: the text's line, cut where it is long, and a caret below the place.
pub fn excerpt(text: &[u8], place: Place) -> String {
    let (before, after) = line(text, place);
    let (cut, before) = last(before, BEFORE);
    let shown_before = shown(before);
    let caret = INDENT.len() + cut.len() + shown_before.chars().count();
    let (after, rest) = first(after, WIDTH - before.len());
    format!(
        "{INDENT}{cut}{shown_before}{}{rest}\n{:caret$}^",
        shown(after),
        ""
    )
}

/// The first characters of a text's first line.
pub fn start(text: &[u8]) -> String {
    let (start, cut) = first(until_line_end(text), START);
    shown(start) + cut
}

/// The bytes of the place's line before it, and those from it on. The column tells where the line
/// begins, so line ends are not looked for a second time.
fn line(text: &[u8], place: Place) -> (&[u8], &[u8]) {
    let at = usize::try_from(place.offset).unwrap_or(usize::MAX);
    let Some((before, after)) = text.split_at_checked(at) else {
        return (&[], &[]);
    };
    let column = usize::try_from(place.column).unwrap_or(1);
    let start = (at + 1).saturating_sub(column);
    (
        before.get(start..).unwrap_or_default(),
        until_line_end(after),
    )
}

fn until_line_end(text: &[u8]) -> &[u8] {
    let mut lines = text.split(|byte| matches!(byte, b'\n' | b'\r'));
    lines.next().unwrap_or_default()
}

/// The last bytes, behind a mark where others were cut.
fn last(bytes: &[u8], most: usize) -> (&'static str, &[u8]) {
    match bytes.len().checked_sub(most) {
        Some(cut) if cut > 0 => (CUT, bytes.get(cut..).unwrap_or_default()),
        _ => ("", bytes),
    }
}

/// The first bytes, before a mark where others were cut.
fn first(bytes: &[u8], most: usize) -> (&[u8], &'static str) {
    match bytes.get(..most) {
        Some(shown) if bytes.len() > most => (shown, CUT),
        _ => (bytes, ""),
    }
}

/// Bytes as characters that cannot disturb a terminal.
fn shown(bytes: &[u8]) -> String {
    String::from_utf8_lossy(bytes)
        .chars()
        .map(printable)
        .collect()
}

#[cfg(test)]
mod tests {
    use super::*;

    fn at(offset: u64, line: u64, column: u64) -> Place {
        Place {
            offset,
            line,
            column,
        }
    }

    #[test]
    fn the_caret_stands_below_the_place() {
        assert_eq!(
            excerpt(b"data_x\n_a\tb c\n_d 1", at(12, 2, 6)),
            "    _a b c\n         ^"
        );
    }

    #[test]
    fn every_line_end_ends_the_line() {
        for text in [
            &b"data_x\r\n?\r\n_a"[..],
            b"data_x\n\r?\r_a",
            b"data_x\r\r?\n",
        ] {
            assert_eq!(excerpt(text, at(8, 2, 1)), "    ?\n    ^");
        }
    }

    #[test]
    fn the_end_of_a_text_has_a_place_too() {
        assert_eq!(excerpt(b"# x", at(3, 1, 4)), "    # x\n       ^");
        assert_eq!(excerpt(b"", at(0, 1, 1)), "    \n    ^");
    }

    #[test]
    fn a_long_line_is_cut_on_both_sides() {
        let text = vec![b'x'; 1000];
        let shown = excerpt(&text, at(500, 1, 501));
        let lines: Vec<&str> = shown.lines().collect();
        assert_eq!(lines[0], format!("    ...{}...", "x".repeat(96)));
        assert_eq!(lines[1], format!("{}^", " ".repeat(4 + 3 + 64)));
    }

    #[test]
    fn control_characters_do_not_reach_the_terminal() {
        assert_eq!(
            excerpt(b"data_x\x0c\x1b[2J", at(6, 1, 7)),
            "    data_x\u{fffd}\u{fffd}[2J\n          ^"
        );
        assert_eq!(
            excerpt(b"'M\xfcller'", at(2, 1, 3)),
            "    'M\u{fffd}ller'\n      ^"
        );
    }

    #[test]
    fn a_start_is_short_and_on_one_line() {
        assert_eq!(start(b"<html>\r\n<body>"), "<html>");
        assert_eq!(start(&[b'x'; 41]), format!("{}...", "x".repeat(40)));
    }

    #[test]
    fn a_place_outside_the_text_shows_nothing() {
        assert_eq!(excerpt(b"x", at(9, 1, 10)), "    \n    ^");
    }
}
