//! The answer of a service, in the numbers of the header.

use crate::refusal::{number, Refusal};

/// What a service answers. The fields are those of the header's `chuntarek_answer`, in its order.
#[repr(C)]
#[derive(Debug, Clone, Copy, PartialEq, Eq, Hash)]
pub struct Answer {
    /// 0 for done, or the number of the refusal.
    pub number: u64,
    /// Where, counted in bytes from 0; for 13 the number of the name's first record.
    pub offset: u64,
    /// The line, from 1; for 13 the number of the record that repeats the name.
    pub line: u64,
    /// The column in bytes, from 1.
    pub column: u64,
    /// For 5 how many values are left over, for 6 and 7 the number of the [`Reason`](crate::Reason),
    /// else 0.
    pub detail: u64,
    /// The length of the store (read, outline), of the rendered text (render) or of the list (compare):
    /// written, or needed where the number is 10 or 11.
    pub first_length: u64,
    /// The length of the area (read): written, or needed where the number is 10 or 11.
    pub second_length: u64,
}

impl Answer {
    /// The two lengths written, or the refusal.
    pub fn result(self) -> Result<(usize, usize), Refusal> {
        if self.number == number::DONE {
            Ok(self.lengths())
        } else {
            Err(Refusal::of(self))
        }
    }

    /// The two lengths that a call with enough room writes, or why no room would be enough.
    pub fn needed(self) -> Result<(usize, usize), Refusal> {
        match self.number {
            number::STORE_FULL | number::AREA_FULL => Ok(self.lengths()),
            _ => self.result(),
        }
    }

    /// Lengths are those of buffers or of room for them: on x86-64 each is a `usize`.
    fn lengths(self) -> (usize, usize) {
        (self.first_length as usize, self.second_length as usize)
    }
}
