//! Hints on what only the strict reading refuses, or refuses otherwise. They decide nothing.

use chuntarek::{number, Document, Kind, Reading, Reason, Record};

use super::hint::{first_word, is_keyword, starts_with, Hint, OPEN_QUOTE};
use super::{excerpt, frame};

/// The most bytes of a tag with its `_`, and of the name of a block or a frame.
const LONGEST_NAME: usize = 75;

/// What to do with a loop that has no values.
const NO_ROWS: &str = "remove the loop, or give it a row of `?`";

/// What to do with a `;` that was meant to open a text field.
const MID_LINE: &str = "a text field opens only at the start of a line: put this `;` there";

/// What is wrong with a name that is empty or too long, by the word that it stands in.
pub fn name_length(word: &[u8]) -> Option<String> {
    let heading = b"data_".len();
    let length = word.len();
    let sentence = if length > LONGEST_NAME && word.starts_with(b"_") {
        too_long("this tag, its `_` included,", length)
    } else if word.starts_with(b"_") {
        String::from("this tag has no name: write one directly behind the `_`")
    } else if length > LONGEST_NAME + heading {
        too_long("the name behind this mark", length - heading)
    } else if starts_with(word, b"data_") {
        String::from("this block has no name: write one directly behind `data_`")
    } else if starts_with(word, b"save_") {
        String::from("no frame is open that this `save_` could close; to open one, write its name directly behind it")
    } else {
        return None;
    };
    Some(sentence)
}

fn too_long(what: &str, length: usize) -> String {
    format!("{what} has {length} bytes, and CIF allows {LONGEST_NAME}: shorten it")
}

/// Whether the tag at this offset, which has no value, belongs to a loop: without it the text would end
/// in a loop that has no tags, or no values.
pub fn is_in_loop(text: &[u8], at: usize) -> bool {
    let before = text.get(..at).unwrap_or_default();
    let refusal = Document::read_as(Reading::Strict, before).err();
    let number = refusal.map(|refusal| refusal.number);
    matches!(number, Some(number::NO_NAMES | number::NO_VALUE))
}

/// The sentence where what stands behind a loop's tags was not meant as a value of it.
pub fn missing_row(rest: &[u8], reason: Reason) -> Option<String> {
    let word = first_word(rest);
    match reason {
        Reason::TextEnds => Some(format!(
            "the file ends where the values of this loop should stand ({NO_ROWS})"
        )),
        Reason::ReservedWord if is_keyword(word) => Some(format!(
            "this loop has no values: `{}` stands in their place ({NO_ROWS})",
            excerpt::start(word)
        )),
        _ => None,
    }
}

/// A quote that is not closed, though a mark of its kind may stand on its line.
pub fn open_quote(rest: &[u8]) -> String {
    let mut line = rest.split(|byte| matches!(byte, b'\n' | b'\r'));
    let line = line.next().unwrap_or_default();
    let marks = line.iter().filter(|byte| Some(*byte) == rest.first());
    match marks.count() {
        0 | 1 => String::from(OPEN_QUOTE),
        _ => format!("{OPEN_QUOTE}: the mark that closes it stands before space or the line's end"),
    }
}

/// The first word that begins with `;` among the values of the last item before a place where another
/// item is expected: it may have been meant to open a text field, and what follows it to stand inside.
pub fn mid_line_field(before: &[u8]) -> Option<Hint> {
    let document = frame::read_up_to(before)?;
    let end = before.len() as u64;
    let is_before = |token: &Record| token.place.is_some_and(|place| place.offset < end);
    let tokens = document.records().filter(is_before);
    let word = tokens.fold(None, |found, token| match token.kind.is_value() {
        true => found.or(Some(token).filter(is_semicolon_word)),
        false => None,
    });
    Some(Hint {
        place: word?.place?,
        sentence: String::from(MID_LINE),
    })
}

fn is_semicolon_word(record: &Record) -> bool {
    record.kind == Kind::Bare && record.content.is_some_and(|word| word.starts_with(b";"))
}

#[cfg(test)]
mod tests {
    use super::super::hint::hints;
    use super::*;

    /// Line, column and sentence of the first hint.
    fn hinted(text: &str) -> (u64, u64, String) {
        let refusal = Document::read_as(Reading::Strict, text.as_bytes()).expect_err(text);
        let hint = hints(Reading::Strict, text.as_bytes(), &refusal).remove(0);
        (hint.place.line, hint.place.column, hint.sentence)
    }

    fn is_hinted(text: &str, line: u64, column: u64, sentence: &str) {
        let (found_line, found_column, found) = hinted(text);
        assert_eq!((found_line, found_column), (line, column), "{text:?}");
        assert!(found.starts_with(sentence), "{text:?}: {found}");
    }

    #[test]
    fn an_empty_name_is_named() {
        is_hinted("#c\nDATA_ _a 1", 2, 1, "this block has no name");
        is_hinted("data_x\n save_ _a 1", 2, 2, "no frame is open that this");
        is_hinted("data_x _ 1", 1, 8, "this tag has no name");
        is_hinted("data_x loop_ _a\n_ 1 2", 2, 1, "this tag has no name");
        is_hinted("data_x data_", 1, 8, "this block has no name");
    }

    #[test]
    fn a_long_name_is_counted() {
        let long = "n".repeat(76);
        is_hinted(
            &format!("data_x _{} 1", "n".repeat(75)),
            1,
            8,
            "this tag, its `_` included, has 76 bytes, and CIF allows 75: shorten it",
        );
        for text in [format!("data_{long}"), format!("data_x\nsave_{long} save_")] {
            let (_, column, sentence) = hinted(&text);
            assert_eq!(column, 1);
            assert_eq!(
                sentence,
                "the name behind this mark has 76 bytes, and CIF allows 75: shorten it"
            );
        }
    }

    #[test]
    fn a_control_character_is_named() {
        is_hinted(
            "data_x\n_a b\x0c",
            2,
            5,
            "the control character 0C (form feed) stands here",
        );
        is_hinted(
            "data_x\n_a '\x7f'",
            2,
            5,
            "the control character 7F (delete)",
        );
        is_hinted("\x7fELF\x02\0", 1, 1, "this is no text file");
    }

    #[test]
    fn a_loop_without_values_is_named() {
        let ends = "the file ends where the values of this loop should stand";
        is_hinted("data_x\nloop_ _a", 2, 9, ends);
        is_hinted("data_x save_f loop_\n_a _b\n", 2, 6, ends);
        for (behind, word) in [
            ("loop_ _c 1", "loop_"),
            ("data_y", "data_y"),
            ("save_f save_", "save_f"),
            ("Stop_", "Stop_"),
        ] {
            let sentence = format!("this loop has no values: `{word}` stands in their place");
            is_hinted(&format!("data_x\nloop_ _a _b\n{behind}"), 3, 1, &sentence);
            is_hinted(
                &format!("data_x save_g\nloop_ _a _b\n{behind}"),
                3,
                1,
                &sentence,
            );
        }
        is_hinted("data_x loop_ _a\n[b]", 2, 1, "this value begins with `[`");
    }

    #[test]
    fn a_tag_without_a_value_is_named_as_ever() {
        is_hinted(
            "data_x _a 1\n_b",
            2,
            3,
            "the file ends where the value of _b should stand",
        );
        is_hinted(
            "data_x loop_ _a 1 save_f\n_b save_",
            2,
            4,
            "the value of _b is missing: `save_` stands in its place",
        );
        is_hinted(
            "data_x _a\n_b 1",
            2,
            1,
            "the value of _a is missing: the tag _b stands in its place",
        );
    }

    #[test]
    fn a_mark_that_closes_nothing_is_spoken_of() {
        let closes = "the quote that opens here is not closed on its line: the mark that closes it";
        is_hinted("data_x\n_a 'b'c", 2, 4, closes);
        is_hinted("data_x\n_a \"b\"#c", 2, 4, closes);
        let open = "the quote that opens here is not closed on its line";
        for value in ["'b", "'b\"", "\"b\n\"", "'"] {
            let (_, _, sentence) = hinted(&format!("data_x _a {value}"));
            assert_eq!(sentence, open, "{value}");
        }
    }

    /// Line and column of each hint.
    fn places(text: &str) -> Vec<(u64, u64)> {
        let refusal = Document::read_as(Reading::Strict, text.as_bytes()).expect_err(text);
        assert_eq!(refusal.number, 7, "{text:?}");
        let hints = hints(Reading::Strict, text.as_bytes(), &refusal);
        for further in hints.iter().skip(1) {
            let only = "a text field opens only at the start of a line: put this `;` there";
            assert_eq!(further.sentence, only, "{text:?}");
        }
        let places = hints.iter().map(|hint| hint.place);
        places.map(|place| (place.line, place.column)).collect()
    }

    #[test]
    fn a_field_that_opens_in_mid_line_is_named() {
        for (text, found, semicolon) in [
            ("data_x\n_a ;b\n;", (3, 1), (2, 4)),
            ("data_x\n_a ; b c\n;", (2, 6), (2, 4)),
            ("data_x\n_a ;b # c\n\nd\n;\n_c 1", (4, 1), (2, 4)),
            ("data_x\n_a\n ;b\n;\ndata_y", (4, 1), (3, 2)),
            ("data_x save_f\n_a ;b\n;\nsave_", (3, 1), (2, 4)),
            ("data_x loop_ _a\n1 ;b\n;", (3, 1), (2, 3)),
            ("data_x loop_ _a\n1 ;b c ;\n;\n_d 1", (3, 1), (2, 3)),
            ("data_x save_f loop_ _a\n;b\n; ;c\n;d", (4, 1), (3, 3)),
        ] {
            assert_eq!(places(text), [found, semicolon], "{text:?}");
        }
    }

    /// Where the item before has no such word, has it inside of something else, or has another fault.
    #[test]
    fn no_other_field_is_spoken_of() {
        for text in [
            "data_x _a ;b _c 1 d",
            "data_x _a ';b' c",
            "data_x _a\n;b\n; c",
            "data_x _a b # ;c\nd",
            "data_x _a b;c d",
            "data_x ;b",
            "data_x save_f _a ;b save_ c",
            "data_x _a ;b loop_ _c 1 $",
            "data_x _;b 1 c",
            "data_x loop_ _a ;b [c]",
            "data_x loop_ _a ;b 'c",
            "data_x loop_ _a ;b stop_",
        ] {
            assert_eq!(places(text).len(), 1, "{text:?}");
        }
    }

    #[test]
    fn what_begins_nothing_is_named() {
        is_hinted(
            "data_x loop__a 1",
            1,
            8,
            "a space is missing behind `loop_`",
        );
        is_hinted(
            "data_x LOOP_#c\n_a 1",
            1,
            8,
            "a space is missing behind `loop_`",
        );
        is_hinted(
            "data_x _a 1 stop_",
            1,
            13,
            "this word is reserved and stands in no CIF file",
        );
        is_hinted(
            "data_x save_f stop_watch",
            1,
            15,
            "a value stands here that belongs to no tag",
        );
    }
}
