//! Messages: one line for each refusal, and below it what stands at its place.

use std::io::{self, Write};

use chuntarek::{number, Document, Kind, Place, Reading, Record, Refusal};

use super::cell;
use super::excerpt::excerpt;
use super::hint::{hints, is_binary, Hint};
use super::input::Input;

/// Writes a message to standard error. If nobody can see it, nothing can be done about that.
pub fn say(message: &str) {
    let _ = writeln!(io::stderr().lock(), "{message}");
}

/// A character as it may stand on a line of a terminal.
pub fn printable(character: char) -> char {
    match character {
        '\t' => ' ',
        _ if character.is_control() => char::REPLACEMENT_CHARACTER,
        _ => character,
    }
}

/// What is wrong with a text that this reading refuses, each thing where it stands.
pub fn refused(reading: Reading, input: &Input, refusal: &Refusal) -> String {
    let mut hints = hints(reading, &input.text, refusal).into_iter();
    let first = hints.next().or_else(|| unhinted(refusal));
    let Some(Hint { place, sentence }) = first else {
        return numbered(refusal, &input.name, &refusal.sentence());
    };
    let message = numbered(refusal, &position(input, place), &sentence);
    if !is_cif(input, refusal) {
        return message;
    }
    let further = hints.map(|hint| at_place(input, hint.place, &hint.sentence));
    let shown = excerpt(&input.text, place);
    let lines = [message, shown].into_iter().chain(further);
    lines.collect::<Vec<String>>().join("\n")
}

/// The refusal's own words, where they are close enough.
fn unhinted(refusal: &Refusal) -> Option<Hint> {
    let place = refusal.place?;
    let sentence = refusal.sentence();
    Some(Hint { place, sentence })
}

fn numbered(refusal: &Refusal, position: &str, sentence: &str) -> String {
    format!("{position}: refused {}: {sentence}", refusal.number)
}

/// What is wrong with the rendering of a text that was read.
pub fn not_rendered(input: &Input, refusal: &Refusal) -> String {
    let (name, number) = (&input.name, refusal.number);
    match number {
        number::TOO_LONG => {
            format!("{name}: refused 1: its rendering would be longer than 16,777,216 bytes")
        }
        _ => numbered(refusal, name, &refusal.sentence()),
    }
}

/// A second block, where one block is to be compared with one.
pub fn several_blocks(input: &Input, document: &Document) -> String {
    let mut blocks = document
        .records()
        .filter(|record| record.kind == Kind::Block);
    let second = "refused 12: a second block begins here: only files of one block can be compared";
    at_record(input, blocks.nth(1), second)
}

/// A tag or a frame that stands twice, with both places, and with both spellings if they differ.
pub fn named_twice(input: &Input, document: &Document, records: (u64, u64)) -> String {
    let (first, second) = (record(document, records.0), record(document, records.1));
    let (before, again) = (spelling(&first), spelling(&second));
    let named = match second.map(|record| record.kind) {
        Some(Kind::FrameOpen) => "frame",
        _ => "tag",
    };
    let again_here = format!("refused 13: the {named} {again} stands here again");
    let mut before_here = String::from("it stands here before");
    if before != again {
        before_here += &format!(" as {before}: small and capital letters count as the same");
    }
    let again_here = at_record(input, second, &again_here);
    let before_here = at_record(input, first, &before_here);
    format!("{again_here}\n{before_here}")
}

/// A tag or a frame as it is written in the file.
fn spelling(record: &Option<Record>) -> String {
    let mut tag = String::new();
    if let Some(record) = record {
        cell::write(record, &mut tag);
    }
    tag
}

/// The record of this number.
fn record(document: &Document, number: u64) -> Option<Record<'_>> {
    document.records().nth(usize::try_from(number).ok()?)
}

fn at_record(input: &Input, record: Option<Record>, message: &str) -> String {
    match record.and_then(|record| record.place) {
        Some(place) => at_place(input, place, message),
        None => format!("{}: {message}", input.name),
    }
}

/// A message at a place, and what stands there.
fn at_place(input: &Input, place: Place, message: &str) -> String {
    let (position, shown) = (position(input, place), excerpt(&input.text, place));
    format!("{position}: {message}\n{shown}")
}

fn position(input: &Input, place: Place) -> String {
    format!("{}:{}:{}", input.name, place.line, place.column)
}

/// Whether showing a line helps: a file that is no CIF at all gets its one line of message alone.
fn is_cif(input: &Input, refusal: &Refusal) -> bool {
    refusal.number != number::NO_DATA && !is_binary(&input.text)
}

#[cfg(test)]
mod tests {
    use super::*;

    /// A small file that holds everything a hint looks at, cut at each byte and ended by others.
    #[test]
    fn no_bytes_break_a_message() {
        let whole =
            b"data_x loop_ _a _b 1 'c' \"d\" # e\n;f\n; _g 'h' save_i save_ loop_ _j\r\n[ _k stop_x";
        let ends = [b'\'', b';', b'#', b'_', b'[', b'.', b' ', 0, 12, 127, 200];
        for reading in [Reading::First, Reading::Strict] {
            let mut refusals = 0;
            for cut in 0..=whole.len() {
                for (first, second) in ends.iter().flat_map(|end| ends.map(|other| (*end, other))) {
                    let text = [&whole[..cut], &[first, second]].concat();
                    refusals += usize::from(is_refused(reading, text));
                }
            }
            assert!(refusals > 5_000, "only {refusals} texts are refused");
        }
    }

    /// Whether a text is refused; then its message has a name and a number.
    fn is_refused(reading: Reading, text: Vec<u8>) -> bool {
        let Err(refusal) = Document::read_as(reading, &text) else {
            return false;
        };
        let name = String::from("x.cif");
        let message = refused(reading, &Input { name, text }, &refusal);
        let start = format!(": refused {}: ", refusal.number);
        assert!(message.starts_with("x.cif:"), "{message}");
        assert!(message.contains(&start), "{message}");
        true
    }
}
