//! Holds the source's answer to ours and says whether they agree, may differ, or must not differ.

use crate::answer::{things, Answer, Record, Refusal, Shown, Thing, Told, ToldRefusal};
use crate::model::TEXT_LIMIT;
use crate::{source, tokens};

/// What comes of comparing one text.
#[derive(Debug, Clone, PartialEq, Eq)]
pub enum Verdict {
    /// Both give the same answer, or it keeps every law: 0 for read, else the refusal's number.
    Same(u8),
    /// The two cannot be held together here, for the reason named.
    SetApart(&'static str),
    /// They differ where they should not.
    Different(String),
}

pub const TOO_LONG: &str = "1: text over the limit";
pub const NOT_ASCII: &str = "2: not ASCII";
pub const NOT_ASCII_READ: &str = "2: not ASCII, the source reads it";
pub const NOT_ASCII_REFUSED: &str = "2: not ASCII, the source refuses it otherwise";
pub const NOT_ASCII_PANIC: &str = "2: not ASCII, the source panics";
pub const NOT_UTF8: &str = "2: not UTF-8, the source cannot be asked";
pub const NO_NAMES: &str = "8: loop without names, the source panics";
pub const DIGITS_READ: &str = "9: over a digit limit, the source reads the text";
pub const DIGITS_REFUSED: &str = "9: over a digit limit, the source reads on and refuses";
pub const DIGITS_PANIC: &str = "9: over a digit limit, the source panics";
pub const WORD_PANIC: &str = "a word that is no number, the source panics on its digits";
pub const FIELD_LINE: &str = "7: line moved by a text field that failed before";

/// Compares our answer to a text with the source's.
pub fn compare(text: &[u8], ours: &Answer) -> Verdict {
    if text.len() > TEXT_LIMIT {
        let expected = matches!(ours, Err(Refusal { number: 1, .. }));
        return set_apart_if(expected, TOO_LONG, "over the limit and not refused by 1");
    }
    if let Some(offset) = text.iter().position(|byte| !byte.is_ascii()) {
        let expected = matches!(ours, Err(refusal) if refusal.number == 2
            && refusal.place.offset == offset);
        return set_apart_if(
            expected,
            not_ascii(text),
            "not ASCII and not refused there by 2",
        );
    }
    let words = std::str::from_utf8(text).expect("ASCII is UTF-8");
    if !source::AT_HAND {
        return without_source(words, ours);
    }
    let told = source::read(words);
    match ours {
        Err(refusal) if refusal.number == 8 => no_names(words, refusal, &told),
        Err(refusal) if refusal.number == 9 => over_limits(words, refusal, &told),
        _ => told_the_same(words, ours, &told),
    }
}

/// What the text itself tells of our answer.
fn without_source(text: &str, ours: &Answer) -> Verdict {
    match ours {
        Ok(records) => match tokens::fault(text, records) {
            Some(fault) => Verdict::Different(fault),
            None => Verdict::Same(0),
        },
        Err(refusal) => Verdict::Same(refusal.number),
    }
}

fn set_apart_if(holds: bool, reason: &'static str, otherwise: &str) -> Verdict {
    if holds {
        Verdict::SetApart(reason)
    } else {
        different(otherwise)
    }
}

fn different(what: &str) -> Verdict {
    Verdict::Different(what.to_string())
}

/// What the source does with a text that is not ASCII.
fn not_ascii(text: &[u8]) -> &'static str {
    if !source::AT_HAND {
        return NOT_ASCII;
    }
    match std::str::from_utf8(text).map(source::read) {
        Ok(Told::Read(_)) => NOT_ASCII_READ,
        Ok(Told::Refused(_)) => NOT_ASCII_REFUSED,
        Ok(Told::Panicked(_)) => NOT_ASCII_PANIC,
        Err(_) => NOT_UTF8,
    }
}

/// A loop without names makes the source divide by zero, unless digits stop it before.
fn no_names(text: &str, refusal: &Refusal, told: &Told) -> Verdict {
    let word = word_at(text, refusal.place.offset);
    if !word.to_ascii_lowercase().starts_with("loop_") {
        return different("8 here, and no loop at its place");
    }
    let panics = matches!(told, Told::Panicked(words) if is_remainder(words) || is_overflow(words));
    set_apart_if(panics, NO_NAMES, "8 here, and the source does not panic")
}

fn is_remainder(words: &str) -> bool {
    words.contains("divisor of zero")
}

fn is_overflow(words: &str) -> bool {
    words.contains("overflow")
}

/// The source has no digit limits, but the word at the place must be a number to it as well.
fn over_limits(text: &str, refusal: &Refusal, told: &Told) -> Verdict {
    let word = word_at(text, refusal.place.offset);
    if !is_number_to_source(word) {
        return different("9 here, and the word is no number to the source");
    }
    if !tokens::breaks_a_limit(word) {
        return different("9 here, and the word keeps the limits");
    }
    Verdict::SetApart(match told {
        Told::Read(_) => DIGITS_READ,
        Told::Refused(_) => DIGITS_REFUSED,
        Told::Panicked(words) if is_overflow(words) || is_remainder(words) => DIGITS_PANIC,
        Told::Panicked(words) => return different(&format!("9 here, the source panics: {words}")),
    })
}

fn word_at(text: &str, offset: usize) -> &str {
    let rest = &text[offset..];
    let end = rest.find(|letter: char| letter.is_ascii_whitespace());
    &rest[..end.unwrap_or(rest.len())]
}

/// Whether the source reads this word alone as a number, or overflows in trying.
fn is_number_to_source(word: &str) -> bool {
    match source::read(&format!("data_ _ {word}")) {
        Told::Read(things) => things.len() == 3 && (14..=15).contains(&things[2].kind),
        Told::Refused(_) => false,
        Told::Panicked(words) => is_overflow(&words),
    }
}

/// Compares two answers that have to be the same.
fn told_the_same(text: &str, ours: &Answer, told: &Told) -> Verdict {
    match (ours, told) {
        (_, Told::Panicked(words)) => word_overflows(text, words),
        (Ok(records), Told::Read(theirs)) => match tokens::fault(text, records) {
            Some(fault) => Verdict::Different(fault),
            None => same_things(records, theirs),
        },
        (Err(refusal), Told::Refused(theirs)) => same_refusal(text, refusal, theirs),
        (Ok(_), Told::Refused(theirs)) => {
            different(&format!("read here, {} in the source", theirs.number))
        }
        (Err(refusal), Told::Read(_)) => {
            different(&format!("{} here, read in the source", refusal.number))
        }
    }
}

/// The source sums up the digits of each word before it knows whether the word is a number.
fn word_overflows(text: &str, words: &str) -> Verdict {
    let digits_run = text
        .split(|letter: char| !letter.is_ascii_digit())
        .any(|run| run.len() > 9);
    if is_overflow(words) && digits_run {
        Verdict::SetApart(WORD_PANIC)
    } else {
        different(&format!("the source panics: {words}"))
    }
}

fn same_things(records: &[Record], theirs: &[Thing]) -> Verdict {
    let ours = things(records);
    let kinds = |things: &[Thing]| things.iter().map(|thing| thing.kind).collect::<Vec<_>>();
    if kinds(&ours) != kinds(theirs) {
        return different("kinds of the things read");
    }
    for (our, their) in ours.iter().zip(theirs) {
        if our.content != their.content {
            return different(&format!("content of kind {}", our.kind));
        }
        if our.amount != their.amount {
            return different(&format!("tags or uncertainty of kind {}", our.kind));
        }
        if our.bits != their.bits {
            return different(&format!("f64 of kind {}", our.kind));
        }
    }
    Verdict::Same(0)
}

fn same_refusal(text: &str, ours: &Refusal, theirs: &ToldRefusal) -> Verdict {
    let number = ours.number;
    if number != theirs.number {
        return different(&format!("{number} here, {} in the source", theirs.number));
    }
    if ours.told_detail() != theirs.detail {
        return different(&format!("detail of a {number}"));
    }
    if !shows(&text[ours.place.offset..], &theirs.shown) {
        return different(&format!("what stands at the place of a {number}"));
    }
    if theirs
        .column
        .is_some_and(|column| column != ours.place.column)
    {
        return different(&format!("column of a {number}"));
    }
    if theirs.line != ours.place.line {
        return other_line(text, ours, theirs.line);
    }
    Verdict::Same(number)
}

/// Whether the text at the place is what the source shows.
fn shows(rest: &str, shown: &Shown) -> bool {
    match shown {
        Shown::RestOfLine(line) => rest.lines().next().unwrap_or("") == line,
        Shown::Start(start) => rest.starts_with(start.as_str()),
        Shown::Lines(lines) => rest.lines().take(lines.len()).eq(lines.iter()),
    }
}

/// A text field that never closes has moved the source's line to the end of the text.
fn other_line(text: &str, ours: &Refusal, their_line: usize) -> Verdict {
    let rest = &text[ours.place.offset..];
    let moved = ours.number == 7
        && rest.starts_with(';')
        && their_line == ours.place.line + tokens::line_ends(rest);
    set_apart_if(moved, FIELD_LINE, &format!("line of a {}", ours.number))
}

#[cfg(test)]
mod tests {
    use super::*;
    use crate::model;
    use crate::reading::Reading;

    fn verdict(text: &str) -> Verdict {
        compare(
            text.as_bytes(),
            &model::read(Reading::First, text.as_bytes()),
        )
    }

    #[test]
    fn texts_with_one_answer() {
        for text in [
            "data_",
            "data_x loop_ _a .5.",
            "DATA_x _A 1.5e3(2) Save_ sAVE_",
        ] {
            assert_eq!(verdict(text), Verdict::Same(0), "{text}");
        }
        for (text, number) in [
            ("", 3),
            ("data_ save_f", 4),
            ("data_x loop_ _a _b 1 2 3", 5),
            ("data_x _a 'b", 6),
            ("data_x loop_ _a 'b", 7),
            ("data_x data_y", 7),
        ] {
            assert_eq!(verdict(text), Verdict::Same(number), "{text}");
        }
    }

    #[cfg(has_source)]
    #[test]
    fn texts_that_are_set_apart() {
        for (text, reason) in [
            ("data_ loop_", NO_NAMES),
            ("data_ _a 1234567890", DIGITS_READ),
            ("data_ _a 1234567890 x", DIGITS_REFUSED),
            ("data_ _a 99999999999", DIGITS_PANIC),
            ("data_ _a 99999999999x", WORD_PANIC),
            ("data_ loop_ _a ;\n", FIELD_LINE),
            ("data_\u{e9}", NOT_ASCII_READ),
            ("\u{e9}", NOT_ASCII_REFUSED),
            ("data_\u{e9} ", NOT_ASCII_PANIC),
        ] {
            assert_eq!(verdict(text), Verdict::SetApart(reason), "{text}");
        }
        let text = [200];
        let answer = model::read(Reading::First, &text);
        assert_eq!(compare(&text, &answer), Verdict::SetApart(NOT_UTF8));
    }

    /// The source says why no value stands nowhere, so any reason will do; a remainder it does tell.
    #[cfg(has_source)]
    #[test]
    fn only_the_detail_of_a_5_is_held_to_the_source() {
        for (text, number) in [("data_x _a 'b", 6), ("data_x loop_ _a 'b", 7)] {
            let refusal =
                model::read(Reading::First, text.as_bytes()).expect_err("no value stands there");
            for detail in 0..=5 {
                let ours = Err(Refusal { detail, ..refusal });
                assert_eq!(compare(text.as_bytes(), &ours), Verdict::Same(number));
            }
        }
        let text = b"data_x loop_ _a _b _c 1 2 3 4";
        let refusal = model::read(Reading::First, text).expect_err("a value is left over");
        let ours = Err(Refusal {
            detail: refusal.detail + 1,
            ..refusal
        });
        assert_eq!(compare(text, &ours), different("detail of a 5"));
    }

    #[cfg(has_source)]
    #[test]
    fn a_wrong_answer_is_seen() {
        let text = b"data_x _a 1 _b 'c'";
        let records = model::read(Reading::First, text).expect("the text is read");
        let mut shorter = records.clone();
        shorter.pop();
        assert!(matches!(compare(text, &Ok(shorter)), Verdict::Different(_)));
        let refusal =
            model::read(Reading::First, b"data_x _a 1 _b '").expect_err("the quote is open");
        assert_eq!(
            compare(text, &Err(refusal)),
            different("6 here, read in the source")
        );
        for number in [1, 2, 8, 9] {
            let wrong = Err(Refusal { number, ..refusal });
            assert!(matches!(compare(text, &wrong), Verdict::Different(_)));
            assert!(matches!(compare(&[200], &wrong), Verdict::Different(_)));
        }
        let other = model::read(Reading::First, b"data_x _a 1 _b 'd'").expect("the text is read");
        assert_eq!(
            compare(text, &Ok(other.clone())),
            different("token of kind 11")
        );
        assert_eq!(
            same_things(&records, &things(&other)),
            different("content of kind 10")
        );
    }
}
