//! A reference model of reading, written from the rules of documents 01 and 02 in their order and not
//! from the source: blocks, frames and items here, values, numbers and lines in the files below. The
//! rules are said once, by cases only where the readings differ. A test aid: slow where plainness asks
//! for it, and nothing of it is proved.

#[cfg(test)]
mod first_tests;
mod lines;
mod numbers;
#[cfg(test)]
mod strict_tests;
#[cfg(test)]
mod told;
mod values;

use crate::answer::{mark_bytes, Answer, Body, Place, Record, Refusal};
use crate::reading::Reading;
use lines::Lines;

pub use lines::{is_control, is_line_end, is_space, LONGEST_LINE};
pub use numbers::{number, Number};
pub use values::{ends_word, is_keyword, starts_bare, RESERVED};

/// The largest text that is read.
pub const TEXT_LIMIT: usize = 16_777_216;

/// The answer to a text: what its length and its bytes are refused for, then what reading meets.
pub fn read(reading: Reading, text: &[u8]) -> Answer {
    if text.len() > TEXT_LIMIT {
        return Err(Refusal {
            number: 1,
            place: Place::NONE,
            detail: 0,
        });
    }
    let lines = Lines::of(text);
    if let Some(stop) = lines::forbidden(reading, text) {
        return Err(lines.refusal(stop));
    }
    let mut reader = Reader {
        reading,
        text,
        at: 0,
        lines,
    };
    reader.blocks().map_err(|stop| reader.lines.refusal(stop))
}

/// The bytes that a name has at most in the strict reading. With its underscore a tag has 75.
pub fn longest_name(kind: u8) -> usize {
    match kind {
        4 | 6 => 74,
        _ => 75,
    }
}

/// Why reading ends: a refusal whose line and column are not yet looked up.
#[derive(Clone, Copy)]
struct Stop {
    number: u8,
    offset: usize,
    detail: usize,
}

impl Stop {
    fn at(number: u8, offset: usize) -> Stop {
        Stop {
            number,
            offset,
            detail: 0,
        }
    }

    /// A tag at this offset has no value, for this reason.
    fn no_value(offset: usize, reason: Reason) -> Stop {
        Stop {
            detail: reason as usize,
            ..Stop::at(6, offset)
        }
    }
}

/// Why no value stands where one is looked for, by 02's numbers.
#[derive(Debug, Clone, Copy, PartialEq, Eq)]
enum Reason {
    TextEnds = 1,
    ReservedWord = 2,
    StartsNoValue = 3,
    OpenQuote = 4,
    OpenField = 5,
}

/// An item's records and, for a loop, why its list of values ended.
type Item = (Vec<Record>, Option<Reason>);

/// A text and how far it is read.
struct Reader<'a> {
    reading: Reading,
    text: &'a [u8],
    at: usize,
    lines: Lines,
}

impl Reader<'_> {
    fn rest(&self) -> &[u8] {
        &self.text[self.at..]
    }

    fn is_strict(&self) -> bool {
        self.reading == Reading::Strict
    }

    /// Whether this keyword stands here.
    fn at_keyword(&self, keyword: &str) -> bool {
        is_keyword(self.reading, keyword, self.rest())
    }

    fn at_tag(&self) -> bool {
        self.rest().first() == Some(&b'_')
    }

    /// Goes over space and comments.
    fn skip(&mut self) {
        while let Some(byte) = self.rest().first() {
            if is_space(*byte) {
                self.at += 1;
            } else if *byte == b'#' {
                self.at += count_while(self.rest(), |byte| !is_line_end(byte));
            } else {
                return;
            }
        }
    }

    /// A record of the token that runs from `start` to where reading stands.
    fn record(&self, kind: u8, start: usize, body: Body) -> Record {
        Record {
            kind,
            place: self.lines.place(start),
            length: self.at - start,
            body,
        }
    }

    /// Goes over a name: the mark, then a word, which is the content.
    fn named(&mut self, kind: u8) -> Result<Record, Stop> {
        let start = self.at;
        self.at += mark_bytes(kind);
        let word = self.word();
        if self.is_strict() && !(1..=longest_name(kind)).contains(&word.len()) {
            return Err(Stop::at(17, start));
        }
        Ok(self.record(kind, start, Body::Content(word)))
    }

    fn word(&mut self) -> Vec<u8> {
        let length = count_while(self.rest(), |byte| !ends_word(byte));
        let word = self.rest()[..length].to_vec();
        self.at += length;
        word
    }

    /// `data_`, a name, then items and frames to the end; in the strict reading further blocks too.
    /// Where none starts directly behind a loop, the detail says why that loop's list had ended.
    fn blocks(&mut self) -> Result<Vec<Record>, Stop> {
        self.skip();
        if !self.at_keyword("data_") {
            return Err(Stop::at(3, self.at));
        }
        let mut records = vec![self.named(1)?];
        let mut list_ended = None;
        loop {
            self.skip();
            if self.rest().is_empty() {
                return Ok(records);
            }
            let (next, ended) = if self.at_keyword("save_") {
                (self.frame()?, None)
            } else if self.at_item() {
                self.item()?
            } else if self.is_strict() && self.at_keyword("data_") {
                (vec![self.named(1)?], None)
            } else {
                return Err(Stop {
                    detail: list_ended.map_or(0, |reason| reason as usize),
                    ..Stop::at(7, self.at)
                });
            };
            records.extend(next);
            list_ended = ended;
        }
    }

    /// `save_`, a name, items and `save_`. In the first reading an item that fails is dropped and ends
    /// the items, so that `save_` has to stand right there.
    fn frame(&mut self) -> Result<Vec<Record>, Stop> {
        let start = self.at;
        let mut records = vec![self.named(2)?];
        loop {
            self.skip();
            if !self.at_item() {
                break;
            }
            match self.item() {
                Ok((item, _)) => records.extend(item),
                Err(stop) if self.drops(stop) => break,
                Err(stop) => return Err(stop),
            }
        }
        records.push(self.frame_close(start)?);
        Ok(records)
    }

    /// Whether an item of a frame that fails so is dropped without a word.
    fn drops(&self, stop: Stop) -> bool {
        !self.is_strict() && (5..=6).contains(&stop.number)
    }

    /// The `save_` that closes the frame opened at this offset.
    fn frame_close(&mut self, opening: usize) -> Result<Record, Stop> {
        let start = self.at;
        if self.at_frame_close() {
            self.at += 5;
            Ok(self.record(3, start, Body::Nothing))
        } else if self.leaves_frame_open() {
            Err(Stop::at(4, opening))
        } else {
            Err(Stop::at(7, start))
        }
    }

    /// In the strict reading a longer word opens a frame and closes none.
    fn at_frame_close(&self) -> bool {
        let longer = self.rest().get(5).is_some_and(|byte| !ends_word(*byte));
        self.at_keyword("save_") && !(self.is_strict() && longer)
    }

    /// Whether what stands here, and is no item, says that a frame was not closed.
    fn leaves_frame_open(&self) -> bool {
        let heading = self.at_keyword("data_") || self.at_keyword("save_");
        !self.is_strict() || heading || self.rest().is_empty()
    }

    fn at_item(&self) -> bool {
        self.at_keyword("loop_") || self.at_tag()
    }

    /// A loop, or a tag and its value.
    fn item(&mut self) -> Result<Item, Stop> {
        if self.at_tag() {
            self.single().map(|records| (records, None))
        } else {
            let (records, ended) = self.whole_loop()?;
            Ok((records, Some(ended)))
        }
    }

    fn single(&mut self) -> Result<Vec<Record>, Stop> {
        let start = self.at;
        let tag = self.named(4)?;
        match self.value()? {
            Ok(value) => Ok(vec![tag, value]),
            Err(reason) => Err(Stop::no_value(start, reason)),
        }
    }

    /// A loop's records, and why its list of values ended. Only the first reading knows loops without
    /// values.
    fn whole_loop(&mut self) -> Result<(Vec<Record>, Reason), Stop> {
        let start = self.at;
        self.at += 5;
        let opening = self.record(5, start, Body::Nothing);
        let tags = self.loop_tags()?;
        let Some(last_tag) = tags.last() else {
            return Err(Stop::at(8, start));
        };
        let (values, ended) = self.loop_values()?;
        if self.is_strict() && values.is_empty() {
            return Err(Stop::no_value(last_tag.place.offset, ended));
        }
        let remainder = values.len() % tags.len();
        if remainder != 0 {
            return Err(Stop {
                detail: remainder,
                ..Stop::at(5, start)
            });
        }
        let mut records = vec![Record {
            body: Body::Tags(tags.len() as u32),
            ..opening
        }];
        records.extend(tags);
        records.extend(values);
        records.push(Record::LOOP_END);
        Ok((records, ended))
    }

    fn loop_tags(&mut self) -> Result<Vec<Record>, Stop> {
        let mut tags = Vec::new();
        loop {
            self.skip();
            if !self.at_tag() {
                return Ok(tags);
            }
            tags.push(self.named(6)?);
        }
    }

    fn loop_values(&mut self) -> Result<(Vec<Record>, Reason), Stop> {
        let mut values = Vec::new();
        loop {
            match self.value()? {
                Ok(value) => values.push(value),
                Err(reason) => return Ok((values, reason)),
            }
        }
    }
}

fn count_while(bytes: &[u8], keeps: impl Fn(u8) -> bool) -> usize {
    bytes.iter().take_while(|byte| keeps(**byte)).count()
}
