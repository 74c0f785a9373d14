//! A frame that the strict reading finds open: what stands where it should have been closed.
//!
//! All that is in such a frame is read, up to a `data_`, a `save_` with a name or the text's end. The
//! refusal tells only where the frame opens; so the library is asked about starts of the text, each with
//! a `save_` behind it. Those that end before that word are not refused for an open frame, all longer
//! ones are, and halving finds where the word stands.

use chuntarek::{number, Document, Place, Reading, TEXT_LIMIT};

use super::excerpt;
use super::hint::{first_word, starts_with, Hint};
use super::walk;

/// What closes a frame, whatever stands before it on its line.
const CLOSE: &[u8] = b"\nsave_";

const AT_END: &str =
    "the file ends here, and its last save frame is not closed: put `save_` on a line of its own here";

/// What stands where the frame that opens at this place should have been closed, and the frame. Empty
/// for a text so near the limit that nothing can be put behind it.
pub fn hints(text: &[u8], opening: Place) -> Vec<Hint> {
    if text.len() + CLOSE.len() > TEXT_LIMIT {
        return Vec::new();
    }
    let (at, sentence) = match stopping_word(text, opening) {
        Some(at) => (at, before_word(text.get(at..).unwrap_or_default())),
        None => (text.len(), String::from(AT_END)),
    };
    let stop = Hint {
        place: walk::place_at(text, opening, at),
        sentence,
    };
    let frame = Hint {
        place: opening,
        sentence: String::from("the frame opens here"),
    };
    vec![stop, frame]
}

fn before_word(rest: &[u8]) -> String {
    let word = first_word(rest);
    let closing = match starts_with(word, b"save_") {
        true => " (a `save_` that closes has no name)",
        false => "",
    };
    format!(
        "`{}` stands here, and the save frame before it is not closed: \
         put `save_` on a line of its own before it{closing}",
        excerpt::start(word)
    )
}

/// The offset of the word that may not stand in the open frame; none where the text ends in it.
fn stopping_word(text: &[u8], opening: Place) -> Option<usize> {
    let is_open = |end: usize| text.get(..end).is_some_and(is_left_open);
    let (mut closed, mut open) = (usize::try_from(opening.offset).ok()?, text.len());
    if !is_open(open) {
        return None;
    }
    while open - closed > 1 {
        let middle = closed + (open - closed) / 2;
        match is_open(middle) {
            true => open = middle,
            false => closed = middle,
        }
    }
    // The shortest such start ends within the word, before any space.
    let start = text.get(..open)?;
    let space = start.iter().rposition(u8::is_ascii_whitespace);
    space.map(|space| space + 1)
}

/// Whether a `save_` behind this start of a text comes too late to close its frame.
fn is_left_open(start: &[u8]) -> bool {
    let text = [start, CLOSE].concat();
    let answer = chuntarek::read(Reading::Strict, &text, &mut [], &mut []);
    answer.number == number::OPEN_FRAME
}

/// What the strict reading makes of a text up to where an item is expected, in a frame or not.
pub fn read_up_to(before: &[u8]) -> Option<Document> {
    let read = |text: &[u8]| Document::read_as(Reading::Strict, text).ok();
    read(before).or_else(|| read(&[before, CLOSE].concat()))
}

#[cfg(test)]
mod tests {
    use super::*;

    /// Line, column and sentence of what stops a frame, which opens at the second line's start.
    fn stopped(text: &[u8]) -> (u64, u64, String) {
        let refusal = Document::read_as(Reading::Strict, text).expect_err("the frame is open");
        let place = refusal.place.expect("a refusal of a text has a place");
        assert_eq!((refusal.number, place.line, place.column), (4, 2, 1));
        let [stop, frame]: [Hint; 2] = hints(text, place).try_into().expect("two hints");
        let opens = String::from("the frame opens here");
        assert_eq!((frame.place, frame.sentence), (place, opens));
        (stop.place.line, stop.place.column, stop.sentence)
    }

    /// A text whose frame holds this, and then a word on line 9 that may not stand there, in column 3.
    fn is_stopped_by(word: &str, closing: &str, inside: &str) {
        for behind in ["", " ", "\n_b", "\nsave_ save_\n", "\n_c 'd\ndata_"] {
            let mut text = format!("data_x\nsave_f {inside}");
            text += &"\n".repeat(8 - text.matches('\n').count());
            text += &format!("\t {word}{behind}");
            let sentence = format!(
                "`{word}` stands here, and the save frame before it is not closed: \
                 put `save_` on a line of its own before it{closing}"
            );
            assert_eq!(stopped(text.as_bytes()), (9, 3, sentence), "{text:?}");
        }
    }

    #[test]
    fn the_word_that_stands_there_is_named() {
        let closing = " (a `save_` that closes has no name)";
        // Words that would stop the frame if they stood outside of quotes, fields and comments.
        for inside in [
            "",
            "_a 1",
            "# data_y\n# save_g",
            "_a 'data_y save_g ' _b \"it's save_g\"",
            "_a\n;data_y\n save_g\n; _b 1",
            "loop_ _a _b\n1 'save_g'\n# save_\n;data_y\n; 2",
        ] {
            is_stopped_by("data_y", "", inside);
            is_stopped_by("DATA_", "", inside);
            is_stopped_by("save_g", closing, inside);
            is_stopped_by("Save_#c", closing, inside);
        }
    }

    #[test]
    fn the_end_of_the_text_is_named() {
        for (behind, line, column) in [
            ("", 2, 7),
            (" ", 2, 8),
            ("\n_a 1", 3, 5),
            ("\n_a 1\r\n\r\n", 5, 1),
            ("\n_a\n;data_y\n;", 5, 2),
            ("\n_a 'data_y'\n# save_", 4, 8),
        ] {
            let text = format!("data_x\nsave_f{behind}");
            let expected = (line, column, String::from(AT_END));
            assert_eq!(stopped(text.as_bytes()), expected, "{text:?}");
        }
    }

    /// Frames before it that are closed, and blocks before it, are not looked at.
    #[test]
    fn the_frame_that_is_open_is_looked_at() {
        let text = b"data_x save_e save_ data_y\nsave_f _a 1\nsave_g _a 1 save_";
        assert_eq!(stopped(text).0, 3);
    }

    #[test]
    fn a_text_at_the_limit_has_no_hint() {
        let mut text = b"data_x\nsave_f\n".to_vec();
        text.resize(TEXT_LIMIT - CLOSE.len(), b'\n');
        assert_eq!(stopped(&text).2, AT_END);
        text.push(b'\n');
        let refusal = Document::read_as(Reading::Strict, &text).expect_err("the frame is open");
        assert_eq!(hints(&text, refusal.place.expect("a place")), []);
    }
}
