//! The lines of a text, and the bytes that it may not hold.

use super::Stop;
use crate::answer::{Place, Refusal};
use crate::reading::Reading;

/// The bytes that a line of the strict reading has at most before its end.
pub const LONGEST_LINE: usize = 2048;

/// The offsets at which the lines of a text begin.
pub struct Lines {
    starts: Vec<usize>,
}

impl Lines {
    /// Line ends are taken greedily from the left: two different ones side by side make one.
    pub fn of(text: &[u8]) -> Lines {
        let mut starts = vec![0];
        let mut at = 0;
        while at < text.len() {
            let pair = text.get(at..at + 2);
            if pair == Some(b"\r\n") || pair == Some(b"\n\r") {
                at += 2;
                starts.push(at);
            } else {
                at += 1;
                if is_line_end(text[at - 1]) {
                    starts.push(at);
                }
            }
        }
        Lines { starts }
    }

    /// Line and column of an offset.
    pub fn place(&self, offset: usize) -> Place {
        let line = self.starts.partition_point(|start| *start <= offset);
        Place {
            offset,
            line,
            column: 1 + offset - self.starts[line - 1],
        }
    }

    pub fn refusal(&self, stop: Stop) -> Refusal {
        Refusal {
            number: stop.number,
            place: self.place(stop.offset),
            detail: stop.detail,
        }
    }
}

/// Why the bytes of a text are refused before anything is read, if they are: 2, then 16 and 18.
pub fn forbidden(reading: Reading, text: &[u8]) -> Option<Stop> {
    let not_ascii = text.iter().position(|byte| *byte >= 128);
    match (not_ascii, reading) {
        (Some(offset), _) => Some(Stop::at(2, offset)),
        (None, Reading::First) => None,
        (None, Reading::Strict) => long_line_or_control(text),
    }
}

/// The first byte that stands too far on its line or is a control byte; the line is judged first.
fn long_line_or_control(text: &[u8]) -> Option<Stop> {
    let mut on_line = 0;
    for (offset, byte) in text.iter().enumerate() {
        on_line = if is_line_end(*byte) { 0 } else { on_line + 1 };
        if on_line > LONGEST_LINE {
            return Some(Stop::at(16, offset));
        }
        if is_control(*byte) {
            return Some(Stop::at(18, offset));
        }
    }
    None
}

pub fn is_line_end(byte: u8) -> bool {
    byte == b'\n' || byte == b'\r'
}

pub fn is_space(byte: u8) -> bool {
    byte == b' ' || byte == b'\t' || is_line_end(byte)
}

/// A byte below 32, or 127, that is neither tab nor a line end.
pub fn is_control(byte: u8) -> bool {
    (byte < 32 || byte == 127) && !is_space(byte)
}
