//! What the source cannot tell of a read text: each record's token stands at its place, and its
//! content and decimal parts are that token's. Done by other means than the model's.

use crate::answer::{Body, Decimal, Record};

/// What is wrong with the places or the bodies of these records, if anything.
pub fn fault(text: &str, records: &[Record]) -> Option<String> {
    let mut walk = Walk::new(text.as_bytes());
    for record in records.iter().filter(|record| record.kind != 7) {
        let fault = |what: &str| Some(format!("{what} of kind {}", record.kind));
        let start = record.place.offset;
        let Some(token) = text.get(start..start + record.length) else {
            return fault("token beyond the text");
        };
        if !walk.reaches(start) {
            return fault("order");
        }
        if (walk.line, walk.column) != (record.place.line, record.place.column) {
            return fault("line or column");
        }
        if !suits(record, token) {
            return fault("token");
        }
        walk.reaches(start + record.length);
    }
    None
}

/// How many line ends stand in a text.
pub fn line_ends(text: &str) -> usize {
    let mut walk = Walk::new(text.as_bytes());
    walk.reaches(text.len());
    walk.line - 1
}

/// A walk over a text, byte by byte, that knows whether it stands between two halves of a line end.
struct Walk<'a> {
    text: &'a [u8],
    offset: usize,
    line: usize,
    column: usize,
    half: u8,
}

impl Walk<'_> {
    fn new(text: &[u8]) -> Walk<'_> {
        Walk {
            text,
            offset: 0,
            line: 1,
            column: 1,
            half: 0,
        }
    }

    /// Walks on to an offset; false where it lies behind.
    fn reaches(&mut self, offset: usize) -> bool {
        while self.offset < offset {
            self.step(self.text[self.offset]);
            self.offset += 1;
        }
        self.offset == offset
    }

    fn step(&mut self, byte: u8) {
        match (self.half, byte) {
            (b'\r', b'\n') | (b'\n', b'\r') => self.half = 0,
            (_, b'\r' | b'\n') => {
                self.line += 1;
                self.column = 1;
                self.half = byte;
            }
            _ => {
                self.column += 1;
                self.half = 0;
            }
        }
    }
}

/// Whether a token can be this record.
fn suits(record: &Record, token: &str) -> bool {
    match (record.kind, &record.body) {
        (1, Body::Content(name)) => is_named(token, "data_", name),
        (2, Body::Content(name)) => is_named(token, "save_", name),
        (4 | 6, Body::Content(name)) => is_named(token, "_", name),
        (3, Body::Nothing) => token.eq_ignore_ascii_case("save_"),
        (5, Body::Tags(_)) => token.eq_ignore_ascii_case("loop_"),
        (8, Body::Nothing) => token == ".",
        (9, Body::Nothing) => token == "?",
        (10, Body::Content(content)) => token.as_bytes() == content,
        (11, Body::Content(content)) => is_between(token, '\'', content),
        (12, Body::Content(content)) => is_between(token, '"', content),
        (13, Body::Content(content)) => is_between(token, ';', content),
        (21, Body::Content(content)) => is_closed_by_its_first(token, content),
        (14 | 15, Body::Number(decimal)) => {
            let number = Parts::of(token).and_then(|parts| parts.decimal());
            number == Some(*decimal) && (record.kind == 15) == decimal.uncertainty.is_some()
        }
        _ => false,
    }
}

fn is_named(token: &str, keyword: &str, name: &[u8]) -> bool {
    token
        .split_at_checked(keyword.len())
        .is_some_and(|(front, rest)| front.eq_ignore_ascii_case(keyword) && rest.as_bytes() == name)
}

fn is_between(token: &str, mark: char, content: &[u8]) -> bool {
    token
        .strip_prefix(mark)
        .and_then(|rest| rest.strip_suffix(mark))
        .is_some_and(|inside| inside.as_bytes() == content)
}

/// Whether a token is this content, which begins with a quote mark, and the same mark once more.
fn is_closed_by_its_first(token: &str, content: &[u8]) -> bool {
    ['\'', '"'].into_iter().any(|mark| {
        let opened = token.strip_suffix(mark);
        opened.is_some_and(|opened| opened.starts_with(mark) && opened.as_bytes() == content)
    })
}

/// Whether a word that is a number breaks a digit limit.
pub fn breaks_a_limit(word: &str) -> bool {
    Parts::of(word).is_some_and(|parts| parts.breaks_a_limit())
}

/// The written parts of a number, each with its sign.
struct Parts<'a> {
    integer: &'a str,
    fraction: &'a str,
    exponent: &'a str,
    uncertainty: Option<&'a str>,
}

impl Parts<'_> {
    /// Cuts at the bracket, the `e` and the point.
    fn of(word: &str) -> Option<Parts<'_>> {
        let (head, uncertainty) = match word.split_once('(') {
            Some((head, tail)) => (head, Some(tail.strip_suffix(')')?)),
            None => (word, None),
        };
        let (mantissa, exponent) = head.split_once(['e', 'E']).unwrap_or((head, ""));
        let (integer, fraction) = mantissa.split_once('.').unwrap_or((mantissa, ""));
        Some(Parts {
            integer,
            fraction,
            exponent,
            uncertainty,
        })
    }

    fn breaks_a_limit(&self) -> bool {
        unsigned(self.integer).len() > 9
            || self.fraction.len() > 18
            || unsigned(self.exponent).len() > 9
            || self.uncertainty.is_some_and(|digits| digits.len() > 9)
    }

    /// The meaning, if all parts are digits within the limits.
    fn decimal(&self) -> Option<Decimal> {
        if self.breaks_a_limit() {
            return None;
        }
        let exponent = amount(unsigned(self.exponent))? as i32;
        Some(Decimal {
            minus: self.integer.starts_with('-'),
            integer: amount(unsigned(self.integer))? as u32,
            fraction: amount(self.fraction)?,
            fraction_digits: self.fraction.len() as u8,
            exponent: match self.exponent.starts_with('-') {
                true => -exponent,
                false => exponent,
            },
            uncertainty: match self.uncertainty {
                Some(digits) => Some(amount(digits)? as u32),
                None => None,
            },
        })
    }
}

fn unsigned(part: &str) -> &str {
    part.strip_prefix(['+', '-']).unwrap_or(part)
}

/// The number of these digits, 0 where there are none.
fn amount(digits: &str) -> Option<u64> {
    let plain = digits.bytes().all(|byte| byte.is_ascii_digit());
    match digits {
        "" => Some(0),
        _ if plain => digits.parse().ok(),
        _ => None,
    }
}

#[cfg(test)]
mod tests {
    use super::*;
    use crate::model;
    use crate::reading::Reading;

    const TEXT: &str = "data_x\r\nsave_f _a 'b'\n\rSAVE_ loop_ _c -1.025e-3(4) ? .\n;x\n;\"\" z";

    #[test]
    fn good_records_have_no_fault() {
        let records = model::read(Reading::First, TEXT.as_bytes()).expect("the text is read");
        assert_eq!(fault(TEXT, &records), None);
    }

    #[test]
    fn each_wrong_field_is_a_fault() {
        let records = model::read(Reading::First, TEXT.as_bytes()).expect("the text is read");
        for number in (0..records.len()).filter(|number| records[*number].kind != 7) {
            let changes: [fn(&mut Record); 5] = [
                |record| record.place.offset += 1,
                |record| record.place.line += 1,
                |record| record.place.column -= 1,
                |record| record.length -= 1,
                |record| record.kind = 0,
            ];
            for change in changes {
                let mut wrong = records.clone();
                change(&mut wrong[number]);
                assert!(fault(TEXT, &wrong).is_some(), "record {number}");
            }
        }
    }

    #[test]
    fn a_strict_quote_is_its_content_and_one_mark_more() {
        let text = "data_x _a 'b'c' _d \"\"";
        let records = model::read(Reading::Strict, text.as_bytes()).expect("the text is read");
        assert_eq!(fault(text, &records), None);
        for content in ["b'c", "'b'", "'b'c'", "", "'"] {
            let mut wrong = records.clone();
            wrong[2].body = Body::Content(content.as_bytes().to_vec());
            assert!(fault(text, &wrong).is_some(), "{content}");
        }
        assert!(!is_closed_by_its_first("abca", b"abc"));
        assert!(!is_closed_by_its_first("'b\"", b"'b"));
    }

    #[test]
    fn limits_go_by_digits() {
        for word in ["0000000000", "1e0000000000", "1(0000000000)"] {
            assert!(breaks_a_limit(word), "{word}");
        }
        for word in ["-000000000", ".000000000000000000", "1e-000000000", "1()"] {
            assert!(!breaks_a_limit(word), "{word}");
        }
    }
}
