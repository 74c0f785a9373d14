//! Hints: a refusal's sentence in closer words, by its reason and by what stands there. They decide
//! nothing.

use chuntarek::{number, Place, Reading, Reason, Refusal};

use super::{excerpt, frame, ragged, strict, walk};

/// What is wrong, and where.
#[derive(Debug, PartialEq, Eq)]
pub struct Hint {
    pub place: Place,
    pub sentence: String,
}

/// What to write where a value is missing.
const WRITE_IT: &str = "write `?` for an unknown value";

/// Said of the place behind a quote that ends too early, which the strict reading's never do.
pub const CLOSED_EARLY: &str =
    "the mark before this closes its quote: a text that holds this mark stands between marks of the other kind";

/// Said of a second block, which the first reading does not take.
const SECOND_BLOCK: &str =
    "a second block begins here: use --strict, which reads several, or put each block into a file of its own";

/// Closer words for this refusal of a text, and what else there is to say; empty where the refusal
/// says enough itself.
pub fn hints(reading: Reading, text: &[u8], refusal: &Refusal) -> Vec<Hint> {
    let Some(place) = refusal.place else {
        return Vec::new();
    };
    match (refusal.number, refusal.reason()) {
        (number::RAGGED, _) => ragged::hints(reading, text, place, refusal),
        (number::NO_VALUE, Some(reason)) => {
            Vec::from_iter(instead_of_value(reading, text, place, reason))
        }
        (number::OPEN_FRAME, _) if reading == Reading::Strict => frame::hints(text, place),
        _ => {
            let sentence = at_place(reading, text, place, refusal);
            let first = sentence.map(|sentence| Hint { place, sentence });
            first
                .into_iter()
                .chain(cause(reading, text, refusal))
                .collect()
        }
    }
}

/// What before the place of a 7 may have led to it, where its reason doesn't explain it.
fn cause(reading: Reading, text: &[u8], refusal: &Refusal) -> Option<Hint> {
    let at = usize::try_from(refusal.place?.offset).ok()?;
    match (reading, refusal.number, refusal.reason()) {
        (Reading::Strict, number::NO_ITEM, None | Some(Reason::OpenField)) => {
            strict::mid_line_field(text.get(..at)?)
        }
        _ => None,
    }
}

/// Closer words where the refusal's own place is the right one.
fn at_place(reading: Reading, text: &[u8], place: Place, refusal: &Refusal) -> Option<String> {
    let offset = usize::try_from(place.offset).ok()?;
    let (before, rest) = text.split_at_checked(offset)?;
    match refusal.number {
        number::NOT_ASCII => Some(instead_of_ascii(text, rest)),
        number::NO_DATA => Some(instead_of_block(text, rest)),
        number::NO_ITEM => instead_of_item(reading, before, rest, refusal.reason()),
        number::NAME_LENGTH => strict::name_length(first_word(rest)),
        number::CONTROL_BYTE if is_binary(text) => Some(String::from(NO_TEXT)),
        number::CONTROL_BYTE => control_character(*rest.first()?),
        _ => None,
    }
}

/// What is not ASCII, by its number, as some such characters look like a space.
fn instead_of_ascii(text: &[u8], rest: &[u8]) -> String {
    if let Some(encoding) = other_encoding(text) {
        return String::from(encoding);
    }
    let found = match (first_character(rest), rest.first()) {
        (Some(character), _) => format!("the character U+{:04X}", u32::from(character)),
        (None, Some(byte)) => format!("the byte {byte:02X}"),
        (None, None) => String::from("this byte"),
    };
    format!("{found} is not plain ASCII, as every byte of a CIF file is")
}

/// The character that bytes begin with, if they do in UTF-8.
fn first_character(bytes: &[u8]) -> Option<char> {
    let chunk = bytes.utf8_chunks().next()?;
    chunk.valid().chars().next()
}

/// Files that are no ASCII text from their first byte on.
fn other_encoding(text: &[u8]) -> Option<&'static str> {
    if text.starts_with(b"\x1f\x8b") {
        Some("the file is compressed: unpack it first")
    } else if text.starts_with(b"\xef\xbb\xbf") {
        Some("the file begins with a byte order mark: save it without one")
    } else if text.starts_with(b"\xff\xfe") || text.starts_with(b"\xfe\xff") {
        Some("the file is in UTF-16: save it as plain ASCII")
    } else if is_binary(text) {
        Some(NO_TEXT)
    } else {
        None
    }
}

const NO_TEXT: &str = "this is no text file";

/// Whether bytes are no text: no text has a byte 0.
pub fn is_binary(text: &[u8]) -> bool {
    text.contains(&0)
}

/// What stands where `data_` is expected.
fn instead_of_block(text: &[u8], rest: &[u8]) -> String {
    if text.is_empty() {
        String::from("the file is empty")
    } else if rest.is_empty() {
        String::from("the file holds only space and comments")
    } else if is_binary(text) {
        String::from(NO_TEXT)
    } else {
        let start = excerpt::start(rest);
        format!("a CIF file begins with `data_` and a name, and here stands `{start}`")
    }
}

/// What stands where the value of a tag should, at its own place. Where the text ends, that is directly
/// behind the tag: there the value can be written.
fn instead_of_value(
    reading: Reading,
    text: &[u8],
    tag_place: Place,
    reason: Reason,
) -> Option<Hint> {
    let start = usize::try_from(tag_place.offset).ok()?;
    let end = walk::word_end(text, start);
    let at = match reason {
        Reason::TextEnds => end,
        _ => walk::gap_end(text, end),
    };
    let tag = excerpt::start(text.get(start..end)?);
    let rest = text.get(at..)?;
    let missing = match reading {
        Reading::Strict if strict::is_in_loop(text, start) => strict::missing_row(rest, reason),
        _ => missing_value(&tag, rest, reason),
    };
    Some(Hint {
        place: walk::place_at(text, tag_place, at),
        sentence: missing.or_else(|| failed_value(reading, rest, reason))?,
    })
}

/// The sentence where what stands there was not meant as the tag's value: the file's end, or the next thing.
fn missing_value(tag: &str, rest: &[u8], reason: Reason) -> Option<String> {
    let word = first_word(rest);
    let found = excerpt::start(word);
    match reason {
        Reason::TextEnds => Some(format!(
            "the file ends where the value of {tag} should stand ({WRITE_IT})"
        )),
        Reason::ReservedWord if is_keyword(word) => Some(format!(
            "the value of {tag} is missing: `{found}` stands in its place ({WRITE_IT})"
        )),
        Reason::StartsNoValue if word.starts_with(b"_") => Some(format!(
            "the value of {tag} is missing: the tag {found} stands in its place \
             ({WRITE_IT}; one that begins with `_` needs quote marks)"
        )),
        _ => None,
    }
}

/// Why what stands here is no value, be it a tag's or a loop's.
pub fn failed_value(reading: Reading, rest: &[u8], reason: Reason) -> Option<String> {
    match reason {
        Reason::ReservedWord => Some(format!(
            "`{}` begins with a reserved word: put quote marks around it",
            excerpt::start(first_word(rest))
        )),
        Reason::StartsNoValue => {
            let first = rest.first()?;
            control_character(*first).or_else(|| Some(unquoted(*first)))
        }
        Reason::OpenQuote if reading == Reading::Strict => Some(strict::open_quote(rest)),
        Reason::OpenQuote => Some(String::from(OPEN_QUOTE)),
        Reason::OpenField => Some(String::from(
            "the text field that opens here has no closing `;` at the start of a line",
        )),
        _ => None,
    }
}

/// Said of a quote without an end.
pub const OPEN_QUOTE: &str = "the quote that opens here is not closed on its line";

fn unquoted(first: u8) -> String {
    let first = char::from(first);
    format!("this value begins with `{first}`: put quote marks around it")
}

/// What stands where a tag, a loop or a frame is expected.
fn instead_of_item(
    reading: Reading,
    before: &[u8],
    rest: &[u8],
    reason: Option<Reason>,
) -> Option<String> {
    let first = *rest.first()?;
    if let Some(control) = control_character(first) {
        return Some(control);
    }
    if let Some(sentence) = misplaced(before, first_word(rest)) {
        return Some(String::from(sentence));
    }
    match reason {
        Some(reason) => failed_value(reading, rest, reason),
        None => Some(String::from(lone_value(first))),
    }
}

/// What shows, by the bytes before it or by its own first word, that it is nobody's value.
fn misplaced(before: &[u8], word: &[u8]) -> Option<&'static str> {
    if before.ends_with(b"'") || before.ends_with(b"\"") {
        Some(CLOSED_EARLY)
    } else if ends_with(before, b"save_") {
        Some("the `save_` before this closes the open frame, and no name follows it: a closing `save_` is missing above")
    } else if starts_with(word, b"data_") {
        Some(SECOND_BLOCK)
    } else if is_keyword(word) {
        Some("this word is reserved and stands in no CIF file")
    } else if starts_with(word, b"loop_") {
        Some("a space is missing behind `loop_`")
    } else {
        None
    }
}

/// Anything behind a tag's value, or at the start, that begins no item.
fn lone_value(first: u8) -> &'static str {
    match first {
        b'\'' | b'"' | b';' => "a value stands here that belongs to no tag",
        _ => "a value stands here that belongs to no tag (a text with spaces needs quote marks)",
    }
}

/// A control character by its number and, where people have one, its name.
fn control_character(byte: u8) -> Option<String> {
    let name = match byte {
        0x00 => " (null)",
        0x07 => " (bell)",
        0x08 => " (backspace)",
        0x0b => " (vertical tab)",
        0x0c => " (form feed)",
        0x1a => " (end of file)",
        0x1b => " (escape)",
        0x7f => " (delete)",
        _ if byte.is_ascii_control() => "",
        _ => return None,
    };
    Some(format!(
        "the control character {byte:02X}{name} stands here: remove it"
    ))
}

/// Whether a word is a keyword of CIF: `data_` and `save_` with any name behind them, the others alone.
/// Other words that begin with one are reserved by the rules of reading only, and were meant as values.
pub fn is_keyword(word: &[u8]) -> bool {
    let is = |keyword: &[u8]| word.eq_ignore_ascii_case(keyword);
    let begins_with = |keyword: &[u8]| starts_with(word, keyword);
    begins_with(b"data_") || begins_with(b"save_") || is(b"loop_") || is(b"global_") || is(b"stop_")
}

pub fn first_word(rest: &[u8]) -> &[u8] {
    rest.get(..walk::word_end(rest, 0)).unwrap_or_default()
}

/// Keywords match in any letter case.
pub fn starts_with(word: &[u8], keyword: &[u8]) -> bool {
    word.get(..keyword.len())
        .is_some_and(|start| start.eq_ignore_ascii_case(keyword))
}

fn ends_with(before: &[u8], keyword: &[u8]) -> bool {
    let start = before.len().saturating_sub(keyword.len());
    before
        .get(start..)
        .is_some_and(|end| end.eq_ignore_ascii_case(keyword))
}

#[cfg(test)]
mod tests {
    use super::*;
    use chuntarek::Document;

    /// The first hint on a refusal, or an empty one.
    fn first_hint(text: &[u8]) -> Hint {
        hint_as(Reading::First, text)
    }

    fn hint_as(reading: Reading, text: &[u8]) -> Hint {
        let refusal = Document::read_as(reading, text).expect_err("the text is refused");
        let nowhere = Place {
            offset: 0,
            line: 0,
            column: 0,
        };
        let none = Hint {
            place: nowhere,
            sentence: String::new(),
        };
        let hints = hints(reading, text, &refusal);
        hints.into_iter().next().unwrap_or(none)
    }

    fn hinted(text: &[u8]) -> String {
        first_hint(text).sentence
    }

    /// Line, column and sentence of what stands behind a tag.
    fn behind_tag(behind: &str) -> (u64, u64, String) {
        let text = format!("data_x\n_a{behind}");
        let hint = first_hint(text.as_bytes());
        (hint.place.line, hint.place.column, hint.sentence)
    }

    /// The sentence on what stands behind a comment, a line end and two bytes of space.
    fn instead(value: &str) -> String {
        let (line, column, sentence) = behind_tag(&format!(" # b\r\n\t {value}"));
        assert_eq!((line, column), (3, 3), "{value}");
        sentence
    }

    #[test]
    fn the_end_of_the_file_is_named_behind_the_tag() {
        let ends =
            "the file ends where the value of _a should stand (write `?` for an unknown value)";
        for behind in ["", " ", "\n", " # b\n\n"] {
            assert_eq!(behind_tag(behind), (2, 3, ends.into()));
        }
    }

    #[test]
    fn a_value_that_is_missing_is_named() {
        let missing = |found: &str| {
            format!("the value of _a is missing: `{found}` stands in its place (write `?` for an unknown value)")
        };
        for word in [
            "loop_", "LOOP_", "data_y", "Data_", "save_f", "save_", "stop_", "Global_",
        ] {
            assert_eq!(instead(&format!("{word} _b 1")), missing(word));
        }
        assert_eq!(
            instead("_b 1"),
            "the value of _a is missing: the tag _b stands in its place \
             (write `?` for an unknown value; one that begins with `_` needs quote marks)"
        );
    }

    #[test]
    fn a_value_that_lacks_quote_marks_is_named() {
        for first in ["$", "[", "]"] {
            assert_eq!(
                instead(&format!("{first}b c")),
                format!("this value begins with `{first}`: put quote marks around it")
            );
        }
        for word in ["stop_watch", "Global_x", "loop_x", "loop__b"] {
            assert_eq!(
                instead(&format!("{word} 1")),
                format!("`{word}` begins with a reserved word: put quote marks around it")
            );
        }
    }

    #[test]
    fn a_value_that_is_not_closed_is_named() {
        let quote = "the quote that opens here is not closed on its line";
        assert_eq!(instead("'b"), quote);
        assert_eq!(instead("\"b'\n\""), quote);
        let field = "the text field that opens here has no closing `;` at the start of a line";
        assert_eq!(instead(";b\n ;"), field);
        assert_eq!(behind_tag("\n;b\n"), (3, 1, field.into()));
    }

    #[test]
    fn a_control_character_for_a_value_is_named() {
        let control = |found: &str| format!("the control character {found} stands here: remove it");
        assert_eq!(behind_tag("\x0c1"), (2, 3, control("0C (form feed)")));
        assert_eq!(instead("\x0b"), control("0B (vertical tab)"));
        assert_eq!(instead("\x01"), control("01"));
        assert_eq!(instead("\x7f"), control("7F (delete)"));
    }

    #[test]
    fn long_words_are_cut() {
        let long = "x".repeat(100);
        let shown = format!("_{}...", "x".repeat(39));
        assert!(hinted(format!("data_x _{long}").as_bytes())
            .starts_with(&format!("the file ends where the value of {shown} should")));
        let shown = format!("`stop_{}...`", "x".repeat(35));
        assert!(instead(&format!("stop_{long}")).starts_with(&shown));
    }

    /// Whatever stands where a value may, there is something to say of it.
    #[test]
    fn every_pair_of_bytes_is_spoken_of() {
        for before in [
            "data_x _a ",
            "data_x _a",
            "data_x loop_ _a 1 ",
            "data_x loop_ _a _b 1 ",
            "data_x _a\n;b\n;",
            "data_x save_f ",
        ] {
            for pair in 0..=u16::MAX {
                let text = [before.as_bytes(), &pair.to_be_bytes()].concat();
                for reading in [Reading::First, Reading::Strict] {
                    is_spoken_of(reading, &text);
                }
            }
        }
    }

    /// Some refusals say enough themselves; all others have a hint within the text.
    fn is_spoken_of(reading: Reading, text: &[u8]) {
        let Err(refusal) = Document::read_as(reading, text) else {
            return;
        };
        let hints = hints(reading, text, &refusal);
        let is_said =
            |hint: &Hint| !hint.sentence.is_empty() && hint.place.offset <= text.len() as u64;
        assert!(hints.iter().all(is_said), "{text:?}");
        let may_be_silent = match refusal.number {
            number::NO_NAMES | number::OVER_LIMIT | number::NO_SPACE => true,
            number::OPEN_FRAME => reading == Reading::First,
            _ => false,
        };
        assert!(may_be_silent || !hints.is_empty(), "{text:?}");
    }

    #[test]
    fn a_second_block_is_named() {
        assert_eq!(hinted(b"data_x DATA_y"), SECOND_BLOCK);
    }

    #[test]
    fn values_without_a_tag_are_named() {
        let lone = "a value stands here that belongs to no tag";
        for text in [
            &b"data_x _a 'b' 'c'"[..],
            b"data_x _a 'b' 'c",
            b"data_x _a b\n;c\n;",
            b"data_x _a b ;c",
        ] {
            assert_eq!(hinted(text), lone);
        }
        let spaces = format!("{lone} (a text with spaces needs quote marks)");
        for text in [
            &b"data_x _a b c"[..],
            b"data_x _a b [c]",
            b"data_x _a b stop_watch",
            b"data_x loop_ _a 1 save_f save_ $",
            b"data_x loop_ _a 1 _b 2 $",
        ] {
            assert_eq!(hinted(text), spaces);
        }
    }

    #[test]
    fn a_mark_inside_a_quote_is_named() {
        assert!(hinted(b"data_x _a 'a dog's life'").starts_with("the mark before this closes"));
        assert!(hinted(b"data_x _a \"b\"c").starts_with("the mark before this closes"));
    }

    #[test]
    fn a_frame_that_is_not_closed_before_the_next_is_named() {
        let hint = hinted(b"data_x save_f _a 1 Save_g _a 2 save_");
        assert!(hint.starts_with("the `save_` before this closes the open frame"));
    }

    #[test]
    fn why_the_values_of_a_loop_end_is_named() {
        for (behind, sentence) in [
            ("'c\n'", "the quote that opens here is not closed"),
            ("\"c", "the quote that opens here is not closed"),
            (";c", "the text field that opens here has no closing `;`"),
            ("[c]", "this value begins with `[`: put quote marks"),
            ("stop_watch", "`stop_watch` begins with a reserved word"),
            ("stop_", "this word is reserved"),
            ("Data_y", "a second block begins here"),
            ("\x0c", "the control character 0C (form feed) stands here"),
        ] {
            for values in ["", "b "] {
                let text = format!("data_x loop_ _a {values}{behind}");
                let hint = hinted(text.as_bytes());
                assert!(hint.starts_with(sentence), "{text:?}: {hint}");
            }
        }
    }

    #[test]
    fn what_begins_nothing_is_named() {
        let form_feed = "the control character 0C (form feed) stands here: remove it";
        assert_eq!(hinted(b"data_x\x0c"), form_feed);
        assert_eq!(hinted(b"data_x loop_ _a b'\x0c"), form_feed);
        assert!(hinted(b"data_x Stop_").starts_with("this word is reserved"));
    }

    #[test]
    fn what_stands_in_the_place_of_a_block_is_named() {
        assert_eq!(hinted(b""), "the file is empty");
        assert_eq!(hinted(b" # x"), "the file holds only space and comments");
        assert_eq!(
            hinted(b"# x\n<!DOCTYPE html>\n<html>"),
            "a CIF file begins with `data_` and a name, and here stands `<!DOCTYPE html>`"
        );
    }

    #[test]
    fn files_that_are_no_plain_text_are_named() {
        assert_eq!(hinted(b"\x89PNG\x0d\x0a\x1a\x0a\0"), "this is no text file");
        assert_eq!(hinted(b"\x7fELF\x02\0"), "this is no text file");
        assert!(hinted(b"\x1f\x8b\x08\0").contains("compressed"));
        assert!(hinted(b"\xef\xbb\xbfdata_x").contains("byte order mark"));
        assert!(hinted(b"\xff\xfed\0").contains("UTF-16"));
    }

    /// A space that does not break a line cannot be told from others by looking.
    #[test]
    fn what_is_not_ascii_is_named() {
        let is_not = "is not plain ASCII, as every byte of a CIF file is";
        for (text, found) in [
            (&b"data_x 'a\xc2\xa0b'"[..], "the character U+00A0"),
            (b"data_x '\xf0\x9f\x98\x80'", "the character U+1F600"),
            (b"data_x 'M\xfcller'", "the byte FC"),
            (b"data_x '\xc3", "the byte C3"),
        ] {
            assert_eq!(hinted(text), format!("{found} {is_not}"));
        }
    }

    #[test]
    fn other_refusals_say_enough_themselves() {
        assert_eq!(hinted(b"data_x loop_"), "");
    }
}
