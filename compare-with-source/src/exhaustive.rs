//! Every short text over telling pieces: fragments of a file, letters of a number, pairs of bytes.

use crate::reading::Reading;

/// Pieces of a text that the rules of a reading tell apart.
pub fn fragments(mix: Reading) -> &'static [&'static str] {
    match mix {
        Reading::First => &FRAGMENTS,
        Reading::Strict => &STRICT_FRAGMENTS,
    }
}

const FRAGMENTS: [&str; 25] = [
    "data_x",
    " ",
    "\n",
    "\r",
    "loop_",
    "_a",
    "save_",
    "save_f",
    "1",
    ".5.",
    "'",
    "\"",
    ";",
    "#",
    "\x0c",
    "?",
    ".",
    "stop_",
    "1e",
    "1()",
    "b",
    "\t",
    "_",
    "[",
    "12345678901x",
];

const STRICT_FRAGMENTS: [&str; 26] = [
    "data_x",
    "data_",
    " ",
    "\n",
    "\r",
    "loop_",
    "loop_x",
    "_a",
    "_",
    "save_",
    "save_f",
    "stop_",
    "1",
    "1e+",
    "1234567890",
    ".x",
    "?",
    ".",
    "'",
    "\"",
    ";",
    "\n;",
    "#",
    "b",
    "[",
    "\t",
];

/// What stands before and behind the pieces.
type Around = (&'static str, &'static str);

const AROUND_FRAGMENTS: [Around; 5] = [
    ("", ""),
    ("data_x ", ""),
    ("data_x loop_ _a ", ""),
    ("data_x save_f ", ""),
    ("data_x save_f ", " save_"),
];

const STRICT_AROUND_FRAGMENTS: [Around; 8] = [
    ("", ""),
    ("data_x ", ""),
    ("data_x _a ", ""),
    ("data_x loop_ _a ", ""),
    ("data_x loop_ _a 1", ""),
    ("data_x loop_ _a _b\n;c\n;", ""),
    ("data_x save_f ", ""),
    ("data_x save_f ", " save_"),
];

/// Letters of which words are made that are numbers or nearly so.
const LETTERS: [&str; 10] = ["+", "-", "0", "7", ".", "e", "E", "(", ")", "x"];

const AROUND_WORDS: [Around; 1] = [("data_x _a ", "")];

/// Places at which any two bytes may stand.
const AROUND_BYTES: [Around; 6] = [
    ("", "data_x"),
    ("data_", ""),
    ("data_x ", " 1"),
    ("data_x _a ", ""),
    ("data_x _a '", "' _b 1"),
    ("data_x _a ;", "\n; _b 1"),
];

/// Further ones for the strict reading: in a field of column 1, and behind one.
const STRICT_AROUND_BYTES: [Around; 2] =
    [("data_x _a\n;", "\n; _b 1"), ("data_x _a\n;b\n;", " _b 1")];

/// How far the exhaustive texts go: pieces in a row, and letters of a word.
pub struct Depth {
    pub fragments: usize,
    pub letters: usize,
}

impl Depth {
    /// What suits a run of so many texts, and leaves room for random ones.
    pub fn for_texts(mix: Reading, texts: u64) -> Depth {
        let share = match mix {
            Reading::First => 1,
            Reading::Strict => 4, // more surroundings, so fewer pieces
        };
        let (fragments, letters) = match texts / share {
            0..100_000 => (2, 3),
            100_000..2_000_000 => (3, 4),
            2_000_000..6_000_000 => (3, 6),
            6_000_000..80_000_000 => (4, 6),
            _ => (5, 7),
        };
        Depth { fragments, letters }
    }
}

/// Gives every exhaustive text to `use_text` until that answers false.
pub fn each(mix: Reading, depth: &Depth, use_text: &mut dyn FnMut(&[u8]) -> bool) -> bool {
    let (around_fragments, further_bytes): (&[Around], &[Around]) = match mix {
        Reading::First => (&AROUND_FRAGMENTS, &[]),
        Reading::Strict => (&STRICT_AROUND_FRAGMENTS, &STRICT_AROUND_BYTES),
    };
    sequences(around_fragments, fragments(mix), depth.fragments, use_text)
        && sequences(&AROUND_WORDS, &LETTERS, depth.letters, use_text)
        && byte_pairs(&AROUND_BYTES, use_text)
        && byte_pairs(further_bytes, use_text)
}

/// All rows of at most so many pieces, in each surrounding.
fn sequences(
    around: &[(&str, &str)],
    pieces: &[&str],
    most: usize,
    use_text: &mut dyn FnMut(&[u8]) -> bool,
) -> bool {
    around.iter().all(|(before, behind)| {
        (0..=most).all(|length| rows(before, behind, pieces, length, use_text))
    })
}

/// All rows of exactly so many pieces in one surrounding, counted as a number's digits are.
fn rows(
    before: &str,
    behind: &str,
    pieces: &[&str],
    length: usize,
    use_text: &mut dyn FnMut(&[u8]) -> bool,
) -> bool {
    let mut chosen = vec![0; length];
    let mut text = Vec::new();
    loop {
        text.clear();
        text.extend(before.as_bytes());
        for choice in &chosen {
            text.extend(pieces[*choice].as_bytes());
        }
        text.extend(behind.as_bytes());
        if !use_text(&text) {
            return false;
        }
        if !count_on(&mut chosen, pieces.len()) {
            return true;
        }
    }
}

/// The next row of choices; false after the last.
fn count_on(chosen: &mut [usize], choices: usize) -> bool {
    for choice in chosen.iter_mut().rev() {
        *choice += 1;
        if *choice < choices {
            return true;
        }
        *choice = 0;
    }
    false
}

/// Every pair of ASCII bytes in each surrounding.
fn byte_pairs(around: &[Around], use_text: &mut dyn FnMut(&[u8]) -> bool) -> bool {
    for (before, behind) in around {
        for pair in 0..128 * 128 {
            let bytes = [(pair / 128) as u8, (pair % 128) as u8];
            let text = [before.as_bytes(), &bytes, behind.as_bytes()].concat();
            if !use_text(&text) {
                return false;
            }
        }
    }
    true
}

#[cfg(test)]
mod tests {
    use super::*;

    #[test]
    fn every_row_comes_once() {
        let mut texts = Vec::new();
        sequences(&[("<", ">")], &["a", "b"], 2, &mut |text| {
            texts.push(String::from_utf8_lossy(text).into_owned());
            true
        });
        assert_eq!(texts, ["<>", "<a>", "<b>", "<aa>", "<ab>", "<ba>", "<bb>"]);
    }

    #[test]
    fn a_full_run_stops() {
        let mut left = 10;
        let depth = Depth::for_texts(Reading::First, 10);
        let all = each(Reading::First, &depth, &mut |_| {
            left -= 1;
            left > 0
        });
        assert!(!all);
        assert_eq!(left, 0);
    }
}
