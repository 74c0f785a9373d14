//! Steps over a text by the rules of reading, to find what a refusal speaks of. They decide nothing.

use chuntarek::Place;

/// Where the word at an offset ends: before space, a line end or a form feed, or with the text.
pub fn word_end(text: &[u8], at: usize) -> usize {
    at + leading(text, at, |byte| !is_space(byte) && byte != 0x0c)
}

/// Where the space and comments at an offset end.
pub fn gap_end(text: &[u8], mut at: usize) -> usize {
    loop {
        at += leading(text, at, is_space);
        if text.get(at) != Some(&b'#') {
            return at;
        }
        at += leading(text, at, |byte| !is_line_end(byte));
    }
}

/// The place of an offset, counted on from a place before it.
pub fn place_at(text: &[u8], from: Place, to: usize) -> Place {
    let mut place = from;
    place.offset = to as u64;
    let start = usize::try_from(from.offset).unwrap_or(to);
    let mut bytes = text.get(start..to).unwrap_or_default().iter().peekable();
    while let Some(byte) = bytes.next() {
        if is_line_end(*byte) {
            // CR LF and LF CR are one line end each.
            bytes.next_if(|next| is_line_end(**next) && *next != byte);
            place.line += 1;
            place.column = 1;
        } else {
            place.column += 1;
        }
    }
    place
}

fn is_space(byte: u8) -> bool {
    matches!(byte, b' ' | b'\t') || is_line_end(byte)
}

fn is_line_end(byte: u8) -> bool {
    matches!(byte, b'\n' | b'\r')
}

/// How many bytes in a row, from an offset on, are of this sort.
fn leading(text: &[u8], at: usize, is_one: impl Fn(u8) -> bool) -> usize {
    let rest = text.get(at..).unwrap_or_default();
    rest.iter().take_while(|byte| is_one(**byte)).count()
}

#[cfg(test)]
mod tests {
    use super::*;
    use chuntarek::Document;

    #[test]
    fn words_end_before_space_and_form_feed() {
        for text in [
            &b"_a b"[..],
            b"_a\tb",
            b"_a\nb",
            b"_a\rb",
            b"_a\x0cb",
            b"_a",
        ] {
            assert_eq!(word_end(text, 0), 2);
        }
        assert_eq!(word_end(b"_a#b'[ c", 0), 6);
        assert_eq!(word_end(b"_a", 2), 2);
    }

    #[test]
    fn gaps_are_space_and_comments() {
        assert_eq!(gap_end(b" \t\r\n#a b\n# c\r  d", 0), 15);
        assert_eq!(gap_end(b"\x0c", 0), 0);
        assert_eq!(gap_end(b" # a", 0), 4);
        assert_eq!(gap_end(b"a #", 0), 0);
    }

    #[test]
    fn outside_the_text_nothing_stands() {
        assert_eq!((word_end(b"a", 9), gap_end(b" ", 9)), (9, 9));
    }

    #[test]
    fn places_are_counted_on() {
        let from = |offset, line, column| Place {
            offset,
            line,
            column,
        };
        let text = b"_a\r\n\n\r# b\r\r  c";
        assert_eq!(place_at(text, from(0, 5, 7), 2), from(2, 5, 9));
        assert_eq!(place_at(text, from(0, 5, 7), 4), from(4, 6, 1));
        assert_eq!(place_at(text, from(0, 5, 7), 6), from(6, 7, 1));
        assert_eq!(place_at(text, from(0, 5, 7), 13), from(13, 9, 3));
    }

    /// The library's own places, over every gap of six bytes that matter.
    #[test]
    fn the_library_finds_the_same_places() {
        let letters = b" \n\r#";
        for row in 0..4usize.pow(6) {
            let letter = |at: u32| letters[row / 4usize.pow(at) % 4];
            let gap: Vec<u8> = (0..6).map(letter).collect();
            let text = [b"data_x\r_a ", &gap[..], b"\n1"].concat();
            let document = Document::read(&text).expect("the value stands there");
            let mut places = document.records().skip(1).map(|record| record.place);
            let tag = places.next().flatten().expect("the tag has a place");
            let value = places.next().flatten();
            let at = gap_end(&text, word_end(&text, tag.offset as usize));
            assert_eq!(Some(place_at(&text, tag, at)), value, "{text:?}");
        }
    }
}
