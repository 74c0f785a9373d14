//! A value, or why none stands where one is looked for.

use std::ops::Range;

use super::{count_while, is_line_end, is_space, number, Number, Reader, Reason, Stop};
use crate::answer::{Body, Decimal, Record};
use crate::reading::Reading;

/// Words before which a value fails.
pub const RESERVED: [&str; 5] = ["data_", "global_", "loop_", "save_", "stop_"];

/// A value, or why none stands there.
type Sought = Result<Record, Reason>;

/// Form feed ends a word and is no space; no text of the strict reading holds one.
pub fn ends_word(byte: u8) -> bool {
    is_space(byte) || byte == 12
}

/// Whether a bare word or a number may start with this byte wherever it stands.
pub fn starts_bare(byte: u8) -> bool {
    (33..=126).contains(&byte) && !b"#$'\"_[];".contains(&byte)
}

/// Whether these bytes begin with a keyword, in any letter case: as the start of a word, or as all of it
/// where the reading asks for that.
pub fn is_keyword(reading: Reading, keyword: &str, bytes: &[u8]) -> bool {
    let Some((start, rest)) = bytes.split_at_checked(keyword.len()) else {
        return false;
    };
    let whole = rest.first().is_none_or(|byte| ends_word(*byte));
    start.eq_ignore_ascii_case(keyword.as_bytes()) && (whole || is_prefix(reading, keyword))
}

/// Whether a longer word that begins with this keyword counts as it.
fn is_prefix(reading: Reading, keyword: &str) -> bool {
    match reading {
        Reading::First => true,
        Reading::Strict => keyword == "data_" || keyword == "save_",
    }
}

impl Reader<'_> {
    /// A value, or why there is none. Where none stands, only space and comments are gone over.
    pub(super) fn value(&mut self) -> Result<Sought, Stop> {
        self.skip();
        let Some(first) = self.rest().first().copied() else {
            return Ok(Err(Reason::TextEnds));
        };
        if RESERVED.iter().any(|keyword| self.at_keyword(keyword)) {
            return Ok(Err(Reason::ReservedWord));
        }
        match (first, self.reading) {
            (b'.', Reading::First) => self.point().map(Ok),
            (b'?', Reading::First) => Ok(Ok(self.token(9, 1))),
            (b'\'' | b'"', _) => Ok(self.quoted(first).ok_or(Reason::OpenQuote)),
            (b';', _) if self.opens_field() => self.field(),
            (b';', _) => self.bare().map(Ok),
            (byte, _) if starts_bare(byte) => self.bare().map(Ok),
            _ => Ok(Err(Reason::StartsNoValue)),
        }
    }

    /// A token of so many bytes that has no content.
    fn token(&mut self, kind: u8, length: usize) -> Record {
        let start = self.at;
        self.at += length;
        self.record(kind, start, Body::Nothing)
    }

    /// A token of so many bytes whose content is this part of them.
    fn text_token(&mut self, kind: u8, length: usize, content: Range<usize>) -> Record {
        let content = self.rest()[content].to_vec();
        Record {
            body: Body::Content(content),
            ..self.token(kind, length)
        }
    }

    /// The first reading's word that starts with a point: a number, or else the point alone.
    fn point(&mut self) -> Result<Record, Stop> {
        let start = self.at;
        let word = self.word();
        match number(self.reading, &word) {
            Number::No => {
                self.at = start;
                Ok(self.token(8, 1))
            }
            Number::Within(decimal) => Ok(self.numeric(start, decimal)),
            Number::OverLimits => Err(Stop::at(9, start)),
        }
    }

    /// A whole word: a number, `.` or `?` alone, or else bare text.
    fn bare(&mut self) -> Result<Record, Stop> {
        let start = self.at;
        let word = self.word();
        match (number(self.reading, &word), word.as_slice()) {
            (Number::Within(decimal), _) => Ok(self.numeric(start, decimal)),
            (Number::OverLimits, _) => Err(Stop::at(9, start)),
            (Number::No, b".") => Ok(self.record(8, start, Body::Nothing)),
            (Number::No, b"?") => Ok(self.record(9, start, Body::Nothing)),
            (Number::No, _) => Ok(self.record(10, start, Body::Content(word))),
        }
    }

    fn numeric(&self, start: usize, decimal: Decimal) -> Record {
        let kind = if decimal.uncertainty.is_some() {
            15
        } else {
            14
        };
        self.record(kind, start, Body::Number(decimal))
    }

    /// To the mark that closes; the strict reading keeps the opening one in the content.
    fn quoted(&mut self, mark: u8) -> Option<Record> {
        let closing = self.closing_mark(mark)?;
        let (kind, content) = match (self.reading, mark) {
            (Reading::First, b'\'') => (11, 1..closing),
            (Reading::First, _) => (12, 1..closing),
            (Reading::Strict, _) => (21, 0..closing),
        };
        Some(self.text_token(kind, closing + 1, content))
    }

    /// The next same mark on the line; in the strict reading only one before space or the line's end.
    fn closing_mark(&self, mark: u8) -> Option<usize> {
        let line = &self.rest()[..count_while(self.rest(), |byte| !is_line_end(byte))];
        (1..line.len()).find(|at| {
            let apart = line.get(at + 1).is_none_or(|next| is_space(*next));
            line[*at] == mark && (apart || !self.is_strict())
        })
    }

    /// In the strict reading a field opens in column 1 alone.
    fn opens_field(&self) -> bool {
        let before = self.text[..self.at].last();
        !self.is_strict() || before.is_some_and(|byte| is_line_end(*byte))
    }

    /// To the first `;` directly behind a line end, which stays in the content. The strict reading wants
    /// space behind it, or a comment: no other token ends where a further one could stand.
    fn field(&mut self) -> Result<Sought, Stop> {
        let last_line_end = self
            .rest()
            .windows(2)
            .position(|pair| is_line_end(pair[0]) && pair[1] == b';');
        let Some(closing) = last_line_end.map(|at| at + 1) else {
            return Ok(Err(Reason::OpenField));
        };
        let field = self.text_token(13, closing + 1, 1..closing);
        let apart = match self.rest().first() {
            Some(next) => is_space(*next) || *next == b'#',
            None => true,
        };
        if self.is_strict() && !apart {
            return Err(Stop::at(15, self.at));
        }
        Ok(Ok(field))
    }
}
