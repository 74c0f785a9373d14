//! A name or a value as it stands in one cell of a table.

use std::fmt::Write;

use chuntarek::{Kind, Record};

/// Writes a record's cell into an empty text: tags with their `_`, texts without their marks, numbers
/// exactly. A cell stays on its line: control characters are written as escapes.
pub fn write(record: &Record, cell: &mut String) {
    cell.clear();
    match record.kind {
        Kind::Inapplicable => cell.push('.'),
        Kind::Unknown => cell.push('?'),
        Kind::Tag | Kind::LoopTag => cell.push('_'),
        Kind::Block => cell.push_str("data_"),
        Kind::FrameOpen => cell.push_str("save_"),
        _ => {}
    }
    if let Some(decimal) = record.decimal {
        // Writing into a text cannot fail.
        let _ = write!(cell, "{decimal}");
    }
    append(record.text().unwrap_or_default(), cell);
}

/// Appends a text, its control characters as escapes.
pub fn append(text: &str, cell: &mut String) {
    for byte in text.bytes() {
        escape(byte, cell);
    }
}

fn escape(byte: u8, cell: &mut String) {
    match byte {
        b'\n' => cell.push_str("\\n"),
        b'\r' => cell.push_str("\\r"),
        b'\t' => cell.push_str("\\t"),
        b'\\' => cell.push_str("\\\\"),
        32..=126 => cell.push(char::from(byte)),
        _ => {
            let _ = write!(cell, "\\x{byte:02x}");
        }
    }
}

#[cfg(test)]
mod tests {
    use super::*;
    use chuntarek::{Document, Reading};

    fn cells(text: &[u8]) -> Vec<String> {
        cells_as(Reading::First, text)
    }

    fn cells_as(reading: Reading, text: &[u8]) -> Vec<String> {
        let document = Document::read_as(reading, text).expect("the text is read");
        let mut cell = String::new();
        document
            .records()
            .map(|record| {
                write(&record, &mut cell);
                cell.clone()
            })
            .collect()
    }

    #[test]
    fn each_kind_has_its_cell() {
        assert_eq!(
            cells(b"data_x save_f _a 'b c' save_ loop_ _d . ? \"e\" f -.50e1(2)"),
            [
                "data_x",
                "save_f",
                "_a",
                "b c",
                "",
                "",
                "_d",
                ".",
                "?",
                "e",
                "f",
                "-0.50e1(2)",
                ""
            ]
        );
    }

    #[test]
    fn a_strict_value_has_its_cell_without_marks() {
        assert_eq!(
            cells_as(
                Reading::Strict,
                b"data_x loop_ _a 'O'Neill H St C' \"b\" '' ;c .d ?e"
            ),
            [
                "data_x",
                "",
                "_a",
                "O'Neill H St C",
                "b",
                "",
                ";c",
                ".d",
                "?e",
                ""
            ]
        );
    }

    #[test]
    fn a_cell_stays_on_its_line() {
        assert_eq!(
            cells(b"data_x _a\n;b\t\\a\r\n\x1b;c\n;"),
            ["data_x", "_a", "b\\t\\\\a\\r\\n\\x1b;c\\n"]
        );
    }
}
