//! Stands in the place of source.rs where the source's files are not at hand.

use crate::answer::Told;

/// Whether the source can be asked.
pub const AT_HAND: bool = false;

/// Nobody asks.
pub fn read(_text: &str) -> Told {
    unreachable!("the source is not at hand, so it is not asked")
}
