//! Differences as lines of a table, one for each value that differs.

use std::io::{self, Write};

use chuntarek::{Case, Entry};

use super::change;

/// The most characters of a text and of a label that are shown.
const WIDEST_TEXT: usize = 32;
const WIDEST_LABEL: usize = 16;

/// The most characters of a text that widens a column of numbers.
const SHORT_TEXT: usize = 12;

/// Columns of names grow to their widest cell, but no further.
const WIDEST_NAME: usize = 48;

/// How much of two long texts is shown before their first difference.
const BEFORE: usize = 8;

const CUT: &str = "...";
const GAP: usize = 2;

/// Writes the entries that are more than rewritten, or all, and then how many are only rewritten.
pub fn table<'a>(
    entries: impl Iterator<Item = Entry<'a>> + Clone,
    rewritten: bool,
    out: &mut impl Write,
) -> io::Result<()> {
    let is_shown = |entry: &Entry| rewritten || entry.case != Case::Rewritten;
    let mut widths = Widths::default();
    let (mut shown, mut left_out) = (false, 0);
    for entry in entries.clone() {
        match is_shown(&entry) {
            true => widths.measure(&Line::of(&entry)),
            false => left_out += 1,
        }
        shown |= is_shown(&entry);
    }
    for entry in entries.filter(is_shown) {
        widths.write(&Line::of(&entry), out)?;
    }
    match left_out {
        0 => Ok(()),
        count => writeln!(out, "{}", only_rewritten(count, shown)),
    }
}

fn only_rewritten(count: u64, more: bool) -> String {
    let more = if more { "more " } else { "" };
    match count {
        1 => format!("1 {more}number is only rewritten, its value is the same (--rewritten shows it)"),
        _ => format!(
            "{count} {more}numbers are only rewritten, their values are the same (--rewritten shows them)"
        ),
    }
}

/// The cells of an entry.
struct Line {
    /// Frame, tag, row and label, each perhaps empty.
    names: [String; 4],
    values: [ValueCell; 2],
    word: &'static str,
}

/// A value: a number in two parts that meet before its point, or a text.
enum ValueCell {
    Number(String, String),
    Text(String),
}

impl Line {
    fn of(entry: &Entry) -> Line {
        let frame = change::frame(entry).map(|name| format!("save_{}", change::escaped(name)));
        let row = change::row(entry).map(|row| format!("row {row}"));
        let label = change::label(entry);
        Line {
            names: [
                frame.unwrap_or_default(),
                format!("_{}", change::escaped(change::tag(entry))),
                row.unwrap_or_default(),
                clipped(&label, 0, WIDEST_LABEL),
            ],
            values: value_cells(entry),
            word: change::word(entry.case),
        }
    }
}

fn value_cells(entry: &Entry) -> [ValueCell; 2] {
    let cells = change::cells(entry);
    let [old, new] = &cells;
    let same = old
        .bytes()
        .zip(new.bytes())
        .take_while(|(old, new)| old == new);
    let differ_at = match old.is_empty() || new.is_empty() {
        true => 0,
        false => same.count(),
    };
    let is_number = [&entry.old, &entry.new].map(|value| {
        value
            .as_ref()
            .is_some_and(|value| value.record.decimal.is_some())
    });
    let mut is_number = is_number.into_iter();
    cells.map(|cell| match is_number.next() {
        Some(true) => at_point(&cell),
        _ => ValueCell::Text(clipped(&cell, differ_at, WIDEST_TEXT)),
    })
}

/// A number, parted before its point, its exponent or its brackets.
fn at_point(number: &str) -> ValueCell {
    let end = number.find(['.', 'e', '(']).unwrap_or(number.len());
    let (before, behind) = number.split_at(end);
    ValueCell::Number(before.into(), behind.into())
}

/// At most so many characters of a text, among them the one where another text begins to differ.
fn clipped(text: &str, differ_at: usize, most: usize) -> String {
    if text.len() <= most {
        return String::from(text);
    }
    let (before, start) = match differ_at + BEFORE < most {
        true => ("", 0),
        false => (CUT, differ_at - BEFORE),
    };
    let room = most - before.len();
    // Cells are ASCII, so every offset parts characters.
    let rest = text.get(start..).unwrap_or_default();
    match rest.get(..room - CUT.len()) {
        Some(part) if rest.len() > room => format!("{before}{part}{CUT}"),
        _ => format!("{before}{rest}"),
    }
}

/// How wide each column is; one that is empty in all lines has no width and no gap.
#[derive(Default)]
struct Widths {
    names: [usize; 4],
    values: [ValueWidth; 2],
}

#[derive(Default)]
struct ValueWidth {
    before: usize,
    behind: usize,
    text: usize,
    short_text: usize,
}

impl ValueWidth {
    fn measure(&mut self, cell: &ValueCell) {
        match cell {
            ValueCell::Number(before, behind) => {
                self.before = self.before.max(before.len());
                self.behind = self.behind.max(behind.len());
            }
            ValueCell::Text(text) => {
                self.text = self.text.max(text.len());
                if text.len() <= SHORT_TEXT {
                    self.short_text = self.short_text.max(text.len());
                }
            }
        }
    }

    /// Where there are numbers they stand close together: a long text moves what follows it on its own
    /// line alone.
    fn width(&self) -> usize {
        match self.before + self.behind {
            0 => self.text,
            numbers => numbers.max(self.short_text),
        }
    }

    /// Numbers with their points below each other, texts from the left.
    fn write(&self, cell: &ValueCell, out: &mut impl Write) -> io::Result<()> {
        let width = self.width();
        match cell {
            ValueCell::Number(before, behind) => {
                let behind_width = width - self.before;
                write!(out, "{before:>0$}{behind:behind_width$}", self.before)
            }
            ValueCell::Text(text) => write!(out, "{text:width$}"),
        }
    }
}

impl Widths {
    fn measure(&mut self, line: &Line) {
        for (width, name) in self.names.iter_mut().zip(&line.names) {
            *width = name.len().min(WIDEST_NAME).max(*width);
        }
        for (width, value) in self.values.iter_mut().zip(&line.values) {
            width.measure(value);
        }
    }

    fn write(&self, line: &Line, out: &mut impl Write) -> io::Result<()> {
        for (width, name) in self.names.iter().zip(&line.names) {
            if *width > 0 {
                write!(out, "{name:width$}{:GAP$}", "")?;
            }
        }
        for (width, value) in self.values.iter().zip(&line.values) {
            width.write(value, out)?;
            write!(out, "{:GAP$}", "")?;
        }
        writeln!(out, "{}", line.word)
    }
}

#[cfg(test)]
mod tests {
    use super::*;
    use chuntarek::Document;

    fn written(old: &str, new: &str, rewritten: bool) -> String {
        let read = |text: &str| Document::read(text.as_bytes()).expect("the text is read");
        let (old, new) = (read(old), read(new));
        let entries = old.compare(&new).expect("they can be compared");
        let mut out = Vec::new();
        table(entries, rewritten, &mut out).expect("a vector has room");
        String::from_utf8(out).expect("tables are text")
    }

    #[test]
    fn points_stand_below_each_other() {
        let old = "data_x _a 1.5 _b -10.25(3) _c 7 _d 2e-3(1)";
        let new = "data_x _a 10.5 _b -9.5 _c 7(1) _d text";
        assert_eq!(
            written(old, new, false),
            "\
_a    1.5      10.5   larger
_b  -10.25(3)  -9.5   larger
_c    7         7(1)  uncertainty
_d    2e-3(1)  text   changed
"
        );
    }

    #[test]
    fn a_long_text_moves_its_own_line_alone() {
        let old = "data_x _a 1 _b 'a longer text than a number' _c ? _d red";
        let new = "data_x _a 2 _b 'any longer text' _c 3.5 _d blue";
        assert_eq!(
            written(old, new, false),
            "\
_a  1    2     larger
_b  a longer text than a number  any longer text  changed
_c  ?    3.5   changed
_d  red  blue  changed
"
        );
        let texts = ["data_x _a b _c 'a longer text'", "data_x _a d _c e"];
        assert_eq!(
            written(texts[0], texts[1], false),
            "_a  b              d  changed\n_c  a longer text  e  changed\n"
        );
    }

    #[test]
    fn frames_rows_and_labels_have_columns_where_there_are_any() {
        let old = "data_x _a 1 save_f _a 1 save_ loop_ _l _x C1 1 C2 2";
        let new = "data_x _a 2 save_f _a 2 save_ loop_ _l _x C1 1 C2 3 N1 .";
        assert_eq!(
            written(old, new, false),
            "        _a             1  2   larger
save_f  _a             1  2   larger
        _x  row 2  C2  2  3   larger
        _l  row 3  N1     N1  only in NEW
        _x  row 3  N1     .   only in NEW
"
        );
    }

    /// The first reading takes any bytes that end no word, and as many as there are.
    #[test]
    fn names_stay_on_their_line_and_move_no_other() {
        let long = "n".repeat(60);
        let text = |value: u64| {
            format!("data_x _a {value} _\x1b[2J {value} _{long} {value} save_\x07 _a {value} save_")
        };
        let (gap, frame) = (" ".repeat(46), " ".repeat(9));
        assert_eq!(
            written(&text(1), &text(2), false),
            format!(
                "{frame}  _a{gap}  1  2  larger\n\
                 {frame}  _\\x1b[2J{}  1  2  larger\n\
                 {frame}  _{long}  1  2  larger\n\
                 save_\\x07  _a{gap}  1  2  larger\n",
                " ".repeat(40)
            )
        );
    }

    #[test]
    fn what_is_only_rewritten_is_counted() {
        let (old, new) = ("data_x _a 1 _b 2 _c 3", "data_x _a 1.0 _b 2.0 _c 4");
        assert_eq!(
            written(old, new, false),
            "_c  3  4  larger\n2 more numbers are only rewritten, their values are the same (--rewritten shows them)\n"
        );
        assert_eq!(
            written(old, new, true),
            "_a  1  1.0  rewritten\n_b  2  2.0  rewritten\n_c  3  4    larger\n"
        );
        assert_eq!(
            written("data_x _a 1", "data_x _a 1.0", false),
            "1 number is only rewritten, its value is the same (--rewritten shows it)\n"
        );
        assert_eq!(written(old, old, true), "");
    }

    /// The first difference of two long texts is in sight.
    #[test]
    fn long_texts_are_cut_where_they_differ() {
        let text = |number: usize, behind: &str| format!("{}{number}{behind}", "long ".repeat(20));
        let [old, new] = [1, 2].map(|number| {
            format!(
                "data_x _a '{}'",
                text(number, " and so on and on and on and on")
            )
        });
        assert_eq!(
            written(&old, &new, false),
            "_a  ...ng long 1 and so on and on...  ...ng long 2 and so on and on...  changed\n"
        );
        let [old, new] = ["", "s"].map(|end| format!("data_x _a '{}'", text(1, end)));
        assert_eq!(
            written(&old, &new, false),
            "_a  ...g long 1  ...g long 1s  changed\n"
        );
        let [old, new] = [
            format!("data_x _a '{}'", text(1, "")),
            String::from("data_x _a ."),
        ];
        assert_eq!(
            written(&old, &new, false),
            "_a  long long long long long long...  .  changed\n"
        );
    }

    #[test]
    fn cuts_keep_the_difference() {
        let text: String = (100..140).map(|number| number.to_string()).collect();
        for differ_at in 0..120 {
            let clipped = clipped(&text, differ_at, 32);
            assert!(clipped.len() <= 32, "{clipped}");
            let part = clipped.trim_matches('.');
            let start = text.find(part).expect("it is a part of the text");
            let end = start + part.len();
            assert!((start..end).contains(&differ_at), "{differ_at} {clipped}");
            let marks = [clipped.starts_with(CUT), clipped.ends_with(CUT)];
            assert_eq!(marks, [start > 0, end < 120], "{clipped}");
        }
        assert_eq!(clipped("short", 3, 32), "short");
    }
}
