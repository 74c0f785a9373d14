//! What the documents say of records that were read: their rendering, names that stand twice, and
//! each record in the numbers of the header. A test aid, as the model is.

#[cfg(any(test, feature = "library"))]
use std::collections::HashMap;

use crate::answer::{Body, Decimal, Record};
use crate::reading::Reading;

/// The rendering: each record's token and a line end; the end of a loop has none.
pub fn rendering(reading: Reading, records: &[Record]) -> Vec<u8> {
    let mut out = Vec::new();
    for record in records.iter().filter(|record| record.kind != 7) {
        if needs_space(reading, record) {
            out.push(b' ');
        }
        put_token(&mut out, record);
        out.push(b'\n');
    }
    out
}

/// In column 1 the strict reading would take a bare `;` for the start of a text field.
fn needs_space(reading: Reading, record: &Record) -> bool {
    let semicolon = matches!(&record.body, Body::Content(content) if content.starts_with(b";"));
    reading == Reading::Strict && record.kind == 10 && semicolon
}

fn put_token(out: &mut Vec<u8>, record: &Record) {
    let (before, behind) = marks(record.kind);
    out.extend(before.as_bytes());
    match &record.body {
        Body::Content(content) => out.extend(content),
        Body::Number(decimal) => out.extend(number(decimal).bytes()),
        Body::Nothing | Body::Tags(_) => {}
    }
    out.extend(behind.as_bytes());
    if let (21, Body::Content(content)) = (record.kind, &record.body) {
        out.extend(content.first()); // the opening mark closes too
    }
}

/// What stands before and behind the content of a kind.
fn marks(kind: u8) -> (&'static str, &'static str) {
    match kind {
        1 => ("data_", ""),
        2 | 3 => ("save_", ""),
        4 | 6 => ("_", ""),
        5 => ("loop_", ""),
        8 => (".", ""),
        9 => ("?", ""),
        11 => ("'", "'"),
        12 => ("\"", "\""),
        13 => (";", ";"),
        _ => ("", ""),
    }
}

fn number(decimal: &Decimal) -> String {
    let mut out = String::from(if decimal.minus { "-" } else { "" });
    out += &decimal.integer.to_string();
    if decimal.fraction_digits > 0 {
        let digits = decimal.fraction.to_string();
        let zeros = usize::from(decimal.fraction_digits) - digits.len();
        out += &format!(".{}{digits}", "0".repeat(zeros));
    }
    if decimal.exponent != 0 {
        out += &format!("e{}", decimal.exponent);
    }
    if let Some(uncertainty) = decimal.uncertainty {
        out += &format!("({uncertainty})");
    }
    out
}

/// The earliest record that repeats a name of its scope, behind the first record of that name. Letter
/// case makes no difference; the scopes are each block's own tags and each frame's.
#[cfg(any(test, feature = "library"))]
pub fn repeated_name(records: &[Record]) -> Option<(usize, usize)> {
    let mut block = HashMap::new();
    let mut frame = HashMap::new();
    let mut in_frame = false;
    for (number, record) in records.iter().enumerate() {
        match (record.kind, &record.body) {
            (1, _) => block.clear(),
            (2, _) => {
                frame.clear();
                in_frame = true;
            }
            (3, _) => in_frame = false,
            (4 | 6, Body::Content(name)) => {
                let scope = if in_frame { &mut frame } else { &mut block };
                if let Some(first) = scope.insert(name.to_ascii_lowercase(), number) {
                    return Some((first, number));
                }
            }
            _ => {}
        }
    }
    None
}

#[cfg(test)]
mod tests {
    use super::*;
    use crate::model;

    fn records(text: &[u8]) -> Vec<Record> {
        model::read(Reading::First, text).expect("the text is read")
    }

    #[test]
    fn records_are_rendered() {
        let text = b"DATA_t _a +01.050e-07(02) loop_ _b\n;c\n; 'd' \"e\" ? . f -.5 SAVE_f save_";
        let rendered =
            "data_t\n_a\n1.050e-7(2)\nloop_\n_b\n;c\n;\n'd'\n\"e\"\n?\n.\nf\n-0.5\nsave_f\nsave_\n";
        assert_eq!(
            rendering(Reading::First, &records(text)),
            rendered.as_bytes()
        );
    }

    fn strict(text: &[u8]) -> Vec<Record> {
        model::read(Reading::Strict, text).expect("the text is read")
    }

    #[test]
    fn strict_records_are_rendered() {
        let text = b"data_x _a ;b loop_ _c 'd' \"e' f\" '' ''' . ?x data_y _a\n;g\n;";
        let rendered =
            "data_x\n_a\n ;b\nloop_\n_c\n'd'\n\"e' f\"\n''\n'''\n.\n?x\ndata_y\n_a\n;g\n;\n";
        assert_eq!(
            rendering(Reading::Strict, &strict(text)),
            rendered.as_bytes()
        );
    }

    #[test]
    fn the_space_before_a_semicolon_is_the_strict_readings_alone() {
        let records = strict(b"data_x _a ;b _c d;");
        assert_eq!(
            rendering(Reading::Strict, &records),
            b"data_x\n_a\n ;b\n_c\nd;\n"
        );
        assert_eq!(
            rendering(Reading::First, &records),
            b"data_x\n_a\n;b\n_c\nd;\n"
        );
    }

    #[test]
    fn each_block_has_its_own_names() {
        let found = |text| repeated_name(&strict(text));
        assert_eq!(found(b"data_x _a 1 data_x _A 2"), None);
        assert_eq!(
            found(b"data_x save_f _a 1 save_ data_x save_f _a 1 save_"),
            None
        );
        assert_eq!(
            found(b"data_x _a 1 data_y _b 2 save_f _B 3 save_ _B 4"),
            Some((4, 10))
        );
        assert_eq!(found(b"data_x data_y loop_ _a _A 1 2"), Some((3, 4)));
    }

    #[test]
    fn names_are_found_twice() {
        let found = |text| repeated_name(&records(text));
        assert_eq!(
            found(b"data_x _a 1 _[ 2 _{ 3 save_f _A 4 save_ save_g _a 5 save_"),
            None
        );
        assert_eq!(
            found(b"data_x _a 1 save_f _b 2 _b 3 save_ _a 4"),
            Some((4, 6))
        );
        assert_eq!(
            found(b"data_x _a 1 save_f _a 2 save_ loop_ _a 3"),
            Some((1, 8))
        );
        assert_eq!(found(b"data_x _Ab.1 1 _b 2 _aB.1 3"), Some((1, 5)));
    }
}
