//! A refusal as the tests of both readings spell it.

use crate::answer::Refusal;

/// Number, offset, line, column and detail.
pub type Told = (u8, usize, usize, usize, usize);

pub fn told(refusal: Refusal) -> Told {
    let place = refusal.place;
    (
        refusal.number,
        place.offset,
        place.line,
        place.column,
        refusal.detail,
    )
}
