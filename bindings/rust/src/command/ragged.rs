//! A loop whose values don't fill whole rows: what it has, and where its values go wrong.
//!
//! A loop that is refused has no records. Where it has one tag, though, any values fill whole rows: so
//! the library is asked once more, about the text without the loop's other tags, and tells its values.

use chuntarek::{number, Document, Kind, Place, Reading, Record, Records, Refusal};

use super::excerpt;
use super::hint::{failed_value, first_word, is_keyword, Hint, CLOSED_EARLY};
use super::walk;

/// The most values that are shown.
const SHOWN: usize = 4;

/// A text that is cut where it is refused is refused again at most for the loop and for the frame that it
/// was cut in.
const MOST_CUTS: usize = 3;

/// What the loop has, and where to look. Empty where its values are not found.
pub fn hints(reading: Reading, text: &[u8], place: Place, refusal: &Refusal) -> Vec<Hint> {
    found(reading, text, place, refusal).unwrap_or_default()
}

fn found(reading: Reading, text: &[u8], place: Place, refusal: &Refusal) -> Option<Vec<Hint>> {
    let left_over = usize::try_from(refusal.detail).ok()?;
    let (one_tag, tags) = with_one_tag(text, usize::try_from(place.offset).ok()?)?;
    let ended = Ended::read(reading, one_tag)?;
    let values = Values::of(&ended.document, place)?;
    // Whatever else was found is not this loop.
    if values.count.checked_rem(tags)? != left_over {
        return None;
    }
    let sentence = format!(
        "{}, as it has {tags} tags and {} (last: {})",
        refusal.sentence(),
        counted(values.count),
        values.last(text)?
    );
    let further = values
        .closed_early()
        .or_else(|| ended.failed(text, &values))
        .or_else(|| values.last_row(left_over))?;
    Some(vec![Hint { place, sentence }, further])
}

fn counted(values: usize) -> String {
    let plural = if values == 1 { "" } else { "s" };
    format!("{values} value{plural}")
}

/// The text with all tags but the first of the loop at this offset made space, and how many it has.
fn with_one_tag(text: &[u8], at: usize) -> Option<(Vec<u8>, usize)> {
    let mut one_tag = text.to_vec();
    let mut tags = 0;
    let mut at = walk::gap_end(text, at + b"loop_".len());
    while text.get(at) == Some(&b'_') {
        let end = walk::word_end(text, at);
        if tags > 0 {
            one_tag.get_mut(at..end)?.fill(b' ');
        }
        tags += 1;
        at = walk::gap_end(text, end);
    }
    Some((one_tag, tags))
}

/// A text as far as it is read, and the refusal of what follows.
struct Ended {
    document: Document,
    refusal: Option<Refusal>,
}

impl Ended {
    fn read(reading: Reading, mut text: Vec<u8>) -> Option<Ended> {
        let mut first = None;
        for _ in 0..=MOST_CUTS {
            match Document::read_as(reading, &text) {
                Ok(document) => {
                    return Some(Ended {
                        document,
                        refusal: first,
                    })
                }
                Err(refusal) => {
                    text.truncate(usize::try_from(refusal.place?.offset).ok()?);
                    first.get_or_insert(refusal);
                }
            }
        }
        None
    }

    /// What stands directly behind the values, if it was meant as one of them.
    fn failed(&self, text: &[u8], values: &Values) -> Option<Hint> {
        let is_no_item = |refusal: &Refusal| refusal.number == number::NO_ITEM;
        let refusal = self.refusal.filter(is_no_item)?;
        let place = refusal.place?;
        let rest = text.get(usize::try_from(place.offset).ok()?..)?;
        if !values.are_last || is_keyword(first_word(rest)) {
            return None;
        }
        let sentence = failed_value(self.document.reading(), rest, refusal.reason()?)?;
        Some(Hint { place, sentence })
    }
}

/// The values of a loop, and whether nothing follows them. They may be millions, so they are walked
/// over and not gathered.
struct Values<'d> {
    first: Records<'d>,
    count: usize,
    are_last: bool,
}

impl<'d> Values<'d> {
    /// The values of the loop with one tag at this place.
    fn of(document: &'d Document, place: Place) -> Option<Values<'d>> {
        let mut records = document.records();
        records.find(|record| record.kind == Kind::Loop && record.place == Some(place))?;
        records.next().filter(|tag| tag.kind == Kind::LoopTag)?;
        let first = records.clone();
        let is_value = |record: &Record| record.kind.is_value();
        Some(Values {
            first,
            // What ends the count is the end of the loop.
            count: records.by_ref().take_while(is_value).count(),
            are_last: records.next().is_none(),
        })
    }

    fn each(&self) -> impl Iterator<Item = Record<'d>> {
        self.first.clone().take(self.count)
    }

    /// The last values as they stand in the text.
    fn last(&self, text: &[u8]) -> Option<String> {
        let last = self.each().skip(self.count.saturating_sub(SHOWN));
        let shown: Option<Vec<String>> = last.map(|value| token(text, &value)).collect();
        Some(shown?.join(" "))
    }

    /// The first value that stands directly behind a quote, as where a quote holds its own mark.
    fn closed_early(&self) -> Option<Hint> {
        let mut pairs = self.each().zip(self.each().skip(1));
        let (_, next) = pairs.find(|(quote, next)| {
            let is_quote = matches!(quote.kind, Kind::SingleQuoted | Kind::DoubleQuoted);
            is_quote && end(quote) == next.place.map(|place| place.offset)
        })?;
        Some(Hint {
            place: next.place?,
            sentence: String::from(CLOSED_EARLY),
        })
    }

    /// Where the row begins that is not whole.
    fn last_row(&self, left_over: usize) -> Option<Hint> {
        let first = self.each().nth(self.count.checked_sub(left_over)?)?;
        Some(Hint {
            place: first.place?,
            sentence: String::from("the row that begins here is not whole"),
        })
    }
}

/// A value as it stands in the text, or its start.
fn token(text: &[u8], value: &Record) -> Option<String> {
    let start = usize::try_from(value.place?.offset).ok()?;
    let end = usize::try_from(end(value)?).ok()?;
    Some(format!("`{}`", excerpt::start(text.get(start..end)?)))
}

/// The offset behind a record's token.
fn end(record: &Record) -> Option<u64> {
    record.place?.offset.checked_add(record.length)
}

#[cfg(test)]
mod tests {
    use super::*;

    fn hinted(text: &[u8]) -> Vec<(u64, u64, String)> {
        hinted_as(Reading::First, text)
    }

    fn hinted_as(reading: Reading, text: &[u8]) -> Vec<(u64, u64, String)> {
        let refusal = Document::read_as(reading, text).expect_err("the text is refused");
        assert_eq!(refusal.number, 5);
        let place = refusal.place.expect("a refusal of a text has a place");
        let hints = hints(reading, text, place, &refusal).into_iter();
        hints
            .map(|hint| (hint.place.line, hint.place.column, hint.sentence))
            .collect()
    }

    fn first(text: &[u8]) -> String {
        let (_, _, sentence) = hinted(text).remove(0);
        let rows = "the values of this loop do not fill whole rows: ";
        String::from(sentence.strip_prefix(rows).expect("it says what is wrong"))
    }

    fn second(text: &[u8]) -> (u64, u64, String) {
        hinted(text).remove(1)
    }

    const NOT_WHOLE: &str = "the row that begins here is not whole";

    #[test]
    fn tags_and_values_are_counted() {
        assert_eq!(
            first(b"data_x loop_ _a _b 1"),
            "1 is left over, as it has 2 tags and 1 value (last: `1`)"
        );
        assert_eq!(
            first(b"data_x LOOP__a#\n #c\n_b _c 1 .5. 'd e'\n;f\ng\n;_h 1"),
            "2 are left over, as it has 3 tags and 5 values (last: `.` `5.` `'d e'` `;f`)"
        );
    }

    /// The second loop of a text, behind a frame that has one alike.
    #[test]
    fn the_loop_that_is_refused_is_looked_at() {
        let text = b"data_x loop_ _a _b 1 2 save_f loop_ _a _b 1 2 3 save_ loop_ _a _b _c 4";
        assert_eq!(
            first(text),
            "1 is left over, as it has 3 tags and 1 value (last: `4`)"
        );
        assert_eq!(second(text), (1, 70, NOT_WHOLE.into()));
    }

    #[test]
    fn the_row_that_is_not_whole_is_shown() {
        let text = b"data_x\nloop_ _a _b _c\n1 2 3\n4\n5";
        assert_eq!(second(text), (4, 1, NOT_WHOLE.into()));
        let text = b"data_x\nloop_ _a _b _c\n1 2\n4 5 6\n";
        assert_eq!(second(text), (4, 3, NOT_WHOLE.into()));
        let text = b"data_x\nloop_ _a _b _c _d _e _f\n1 2 3 4 5 6 7\n8 9 10 11";
        assert_eq!(second(text), (3, 13, NOT_WHOLE.into()));
    }

    #[test]
    fn a_value_that_ends_the_list_is_shown() {
        for (behind, sentence) in [
            (
                "[2]",
                "this value begins with `[`: put quote marks around it",
            ),
            (
                "$2",
                "this value begins with `$`: put quote marks around it",
            ),
            (
                "Stop_watch 2",
                "`Stop_watch` begins with a reserved word: put quote marks around it",
            ),
            ("'2", "the quote that opens here is not closed on its line"),
            (
                ";2",
                "the text field that opens here has no closing `;` at the start of a line",
            ),
            (
                "\x0b",
                "the control character 0B (vertical tab) stands here: remove it",
            ),
        ] {
            let text = format!("data_x\nloop_ _a _b\n1 # c\n {behind}");
            assert_eq!(second(text.as_bytes()), (4, 2, sentence.into()), "{behind}");
        }
    }

    #[test]
    fn what_begins_something_else_is_no_value() {
        for behind in [
            "",
            "_c 1",
            "_c",
            "_c 'b",
            "_c [",
            "loop_ _c 1 [",
            "loop_",
            "save_f save_",
            "save_f",
            "data_y",
            "stop_",
            "save_f loop_ save_",
            "save_f _c 1234567890 save_",
            "_c 1234567890",
            "_c 1 'b",
            "loop_ _c _d 1 2 1234567890",
            "loop_ _c _d 1 1234567890",
        ] {
            let text = format!("data_x\nloop_ _a _b\n1 2 3 {behind}");
            assert_eq!(
                second(text.as_bytes()),
                (3, 5, NOT_WHOLE.into()),
                "{behind}"
            );
        }
    }

    #[test]
    fn a_mark_within_a_quote_is_shown() {
        let glued = b"data_x loop_ _a _b\n.5. ?";
        assert_eq!(second(glued), (2, 5, NOT_WHOLE.into()));
        let text = b"data_x loop_ _a _b\n1 'b' 2 'GUANOSINE-5'-PHOSPHATE'\n3 \"c\"d 4\n";
        assert_eq!(second(text), (2, 22, CLOSED_EARLY.into()));
        let text = b"data_x loop_ _a _b _c\n1 'a dog's life '\n";
        assert_eq!(second(text), (2, 10, CLOSED_EARLY.into()));
    }

    /// The strict reading's own values, in its second block, before a frame that ends in an empty loop.
    #[test]
    fn the_strict_readings_loops_are_looked_at() {
        let text = b"data_x _a 1 data_y\nloop_ _a _b\n'it's' ;b .c\nsave_f loop_ _d save_";
        let hints = hinted_as(Reading::Strict, text);
        let counted = "1 is left over, as it has 2 tags and 3 values (last: `'it's'` `;b` `.c`)";
        let expected = [(2, 1, counted), (3, 11, NOT_WHOLE)];
        assert_eq!(hints.len(), 2);
        for (hint, (line, column, end)) in hints.iter().zip(expected) {
            assert_eq!((hint.0, hint.1), (line, column));
            assert!(hint.2.ends_with(end), "{}", hint.2);
        }
        let text = b"data_x\nloop_ _a _b\n1 'b'c";
        let sentence = "the quote that opens here is not closed on its line: \
                        the mark that closes it stands before space or the line's end";
        let second = hinted_as(Reading::Strict, text).remove(1);
        assert_eq!(second, (3, 3, sentence.into()));
    }
}
