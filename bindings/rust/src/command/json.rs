//! Differences as JSON, one object on a line for each value that differs.

use std::io::{self, Write};

use chuntarek::{Entry, Kind, Value};

use super::change;

/// Writes an entry. Values are as in `render`, texts without their marks, and nothing is cut.
pub fn write(entry: &Entry, out: &mut impl Write) -> io::Result<()> {
    writeln!(
        out,
        "{{\"case\":{},\"frame\":{},\"tag\":{},\"row\":{},\"old\":{},\"new\":{}}}",
        quoted(change::word(entry.case)),
        optional(change::frame(entry)),
        quoted(&format!("_{}", change::tag(entry))),
        or_null(change::row(entry).map(|row| row.to_string())),
        or_null(entry.old.as_ref().map(side)),
        or_null(entry.new.as_ref().map(side)),
    )
}

fn side(value: &Value) -> String {
    let record = &value.record;
    let (line, column) = record
        .place
        .map_or((0, 0), |place| (place.line, place.column));
    format!(
        "{{\"record\":{},\"line\":{line},\"column\":{column},\"label\":{},\"kind\":\"{}\",\"value\":{}}}",
        value.number,
        optional(value.label),
        kind(record.kind),
        quoted(&token(value)),
    )
}

fn kind(kind: Kind) -> &'static str {
    match kind {
        Kind::Inapplicable => "inapplicable",
        Kind::Unknown => "unknown",
        Kind::Number | Kind::Uncertain => "number",
        _ => "text",
    }
}

fn token(value: &Value) -> String {
    match (value.record.decimal, value.record.text(), value.record.kind) {
        (Some(decimal), _, _) => decimal.to_string(),
        (None, Some(text), _) => String::from(text),
        (None, None, Kind::Inapplicable) => String::from("."),
        (None, None, _) => String::from("?"),
    }
}

fn optional(text: Option<&str>) -> String {
    or_null(text.map(quoted))
}

fn or_null(json: Option<String>) -> String {
    json.unwrap_or_else(|| String::from("null"))
}

/// A JSON string. Texts are ASCII.
fn quoted(text: &str) -> String {
    let escaped = text.chars().map(|character| match character {
        '"' => String::from("\\\""),
        '\\' => String::from("\\\\"),
        '\n' => String::from("\\n"),
        '\r' => String::from("\\r"),
        '\t' => String::from("\\t"),
        ' '..='~' => String::from(character),
        _ => format!("\\u{:04x}", u32::from(character)),
    });
    format!("\"{}\"", escaped.collect::<String>())
}

#[cfg(test)]
mod tests {
    use super::*;
    use chuntarek::Document;

    #[test]
    fn every_entry_is_an_object() {
        let old = Document::read(b"data_x save_F _a 1.50(2) save_ loop_ _l _b 'C \"1\"' .")
            .expect("it is read");
        let new = Document::read(
            b"data_y save_f _a 1.5(1) save_\nloop_ _l _b\n'C \"1\"'\n;\\a\tb\x01\n;",
        )
        .expect("it is read");
        let mut out = Vec::new();
        for entry in old.compare(&new).expect("they can be compared") {
            write(&entry, &mut out).expect("a vector has room");
        }
        assert_eq!(
            String::from_utf8(out).expect("JSON is text"),
            "{\"case\":\"uncertainty\",\"frame\":\"F\",\"tag\":\"_a\",\"row\":null,\
             \"old\":{\"record\":3,\"line\":1,\"column\":18,\"label\":null,\"kind\":\"number\",\"value\":\"1.50(2)\"},\
             \"new\":{\"record\":3,\"line\":1,\"column\":18,\"label\":null,\"kind\":\"number\",\"value\":\"1.5(1)\"}}\n\
             {\"case\":\"changed\",\"frame\":null,\"tag\":\"_b\",\"row\":1,\
             \"old\":{\"record\":9,\"line\":1,\"column\":52,\"label\":\"C \\\"1\\\"\",\"kind\":\"inapplicable\",\"value\":\".\"},\
             \"new\":{\"record\":9,\"line\":4,\"column\":1,\"label\":\"C \\\"1\\\"\",\"kind\":\"text\",\
             \"value\":\"\\\\a\\tb\\u0001\\n\"}}\n"
        );
    }

    #[test]
    fn a_side_that_is_missing_is_null() {
        let (old, new) = (Document::read(b"data_x _a ?"), Document::read(b"data_x"));
        let (old, new) = (old.expect("it is read"), new.expect("it is read"));
        let entry = old
            .compare(&new)
            .expect("they can be compared")
            .next()
            .expect("they differ");
        let mut out = Vec::new();
        write(&entry, &mut out).expect("a vector has room");
        let written = String::from_utf8(out).expect("JSON is text");
        assert!(
            written.starts_with("{\"case\":\"only in OLD\","),
            "{written}"
        );
        assert!(
            written.ends_with("\"kind\":\"unknown\",\"value\":\"?\"},\"new\":null}\n"),
            "{written}"
        );
    }
}
