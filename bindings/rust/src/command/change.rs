//! What is said of one value that differs: its tag, its row, and the word for it.

use chuntarek::{Case, Entry, Kind, Record, Value};

use super::cell;

/// The word for what the new value is to the old one.
pub fn word(case: Case) -> &'static str {
    match case {
        Case::OnlyOld => "only in OLD",
        Case::OnlyNew => "only in NEW",
        Case::OldLarger => "smaller",
        Case::NewLarger => "larger",
        Case::Uncertainty => "uncertainty",
        Case::Rewritten => "rewritten",
        _ => "changed",
    }
}

/// What an entry tells by both of its sides: the old one, where it has one.
fn told<'a, T>(entry: &Entry<'a>, of: impl Fn(&Value<'a>) -> Option<T>) -> Option<T> {
    let sides = [&entry.old, &entry.new];
    sides.into_iter().flatten().find_map(of)
}

/// The tag without its `_`.
pub fn tag<'a>(entry: &Entry<'a>) -> &'a str {
    told(entry, |value| Some(value.tag)).unwrap_or_default()
}

/// The frame's name; none in the block itself.
pub fn frame<'a>(entry: &Entry<'a>) -> Option<&'a str> {
    told(entry, |value| value.frame)
}

/// The row as people count, from 1; none where neither value stands in a loop.
pub fn row(entry: &Entry) -> Option<u64> {
    told(entry, |value| value.row).map(|row| row + 1)
}

/// The row's label; both labels, where they differ.
pub fn label(entry: &Entry) -> String {
    let labels = [&entry.old, &entry.new].map(|value| value.as_ref().and_then(|value| value.label));
    match labels {
        [Some(old), Some(new)] if old != new => format!("{}/{}", escaped(old), escaped(new)),
        [old, new] => old.or(new).map(escaped).unwrap_or_default(),
    }
}

/// A name or a text that stays on its line.
pub fn escaped(text: &str) -> String {
    let mut escaped = String::new();
    cell::append(text, &mut escaped);
    escaped
}

/// Both values as cells, empty where there is none. A number and a text that look the same are told apart
/// by the text's marks.
pub fn cells(entry: &Entry) -> [String; 2] {
    let records = [&entry.old, &entry.new].map(|value| value.as_ref().map(|value| &value.record));
    let cells = records.map(|record| record.map_or(String::new(), cell_of));
    match &cells {
        [old, new] if old == new => records.map(|record| record.map_or(String::new(), marked)),
        _ => cells,
    }
}

fn cell_of(record: &Record) -> String {
    let mut text = String::new();
    cell::write(record, &mut text);
    text
}

/// The cell in the quote marks that the value has in its file, if any.
fn marked(record: &Record) -> String {
    let mark = match record.kind {
        Kind::SingleQuoted => "'",
        Kind::DoubleQuoted => "\"",
        Kind::Quoted
            if record
                .content
                .is_some_and(|content| content.starts_with(b"\"")) =>
        {
            "\""
        }
        Kind::Quoted => "'",
        _ => "",
    };
    format!("{mark}{}{mark}", cell_of(record))
}

#[cfg(test)]
mod tests {
    use super::*;
    use chuntarek::{Document, Reading};

    /// What is said of the first value that differs.
    fn said(reading: Reading, old: &str, new: &str) -> String {
        let read = |text: &str| Document::read_as(reading, text.as_bytes()).expect("it is read");
        let (old, new) = (read(old), read(new));
        let mut entries = old.compare(&new).expect("they can be compared");
        let entry = entries.next().expect("they differ");
        let [old, new] = cells(&entry);
        let (frame, row) = (frame(&entry), row(&entry));
        let (tag, label, word) = (tag(&entry), label(&entry), word(entry.case));
        format!("{frame:?} {tag} {row:?} {label:?} [{old}] [{new}] {word}")
    }

    fn first(old: &str, new: &str) -> String {
        said(Reading::First, old, new)
    }

    #[test]
    fn the_old_spelling_and_the_row_are_told() {
        assert_eq!(
            first("data_x _a 1", "data_x loop_ _b _A x 2"),
            "None a Some(1) \"x\" [1] [2] larger"
        );
        assert_eq!(
            first("data_x save_F _a 2 save_", "data_x save_f _A 1 save_"),
            "Some(\"F\") a None \"\" [2] [1] smaller"
        );
        assert_eq!(
            first("data_x loop_ _a 1 2", "data_x loop_ _a 1"),
            "None a Some(2) \"\" [2] [] only in OLD"
        );
    }

    #[test]
    fn both_labels_are_told_where_they_differ() {
        assert_eq!(
            first("data_x loop_ _l _a C1 1", "data_x loop_ _l _a 'H\t1' 1"),
            "None l Some(1) \"C1/H\\\\t1\" [C1] [H\\t1] changed"
        );
        assert_eq!(
            first("data_x loop_ _a _l 1 C1", "data_x loop_ _a _m 2 C2"),
            "None a Some(1) \"C1/C2\" [1] [2] larger"
        );
    }

    #[test]
    fn values_that_look_the_same_have_their_marks() {
        for (old, new, told) in [
            ("1", "'1'", "[1] ['1']"),
            ("\".\"", ".", "[\".\"] [.]"),
            ("?", "'?'", "[?] ['?']"),
            ("a", "'b'", "[a] [b]"),
            ("1.50", "1.5", "[1.50] [1.5]"),
        ] {
            let texts = [old, new].map(|value| format!("data_x _a {value}"));
            for reading in [Reading::First, Reading::Strict] {
                let said = said(reading, &texts[0], &texts[1]);
                assert!(said.contains(told), "{said}");
            }
        }
    }
}
