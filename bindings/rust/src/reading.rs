//! Readings: whose rules a text is read by.

/// Whose rules a text is read by. A store belongs to the reading that wrote it, and is handed on with it.
#[derive(Debug, Clone, Copy, Default, PartialEq, Eq, Hash)]
#[non_exhaustive]
pub enum Reading {
    /// One block, read as pdbtbx reads it: a quote ends at the next mark of its kind, a text field may
    /// open anywhere on a line, and tokens need no space between them.
    #[default]
    First = 1,
    /// CIF 1.1 as the standard has it: one block or more, quotes that end only before space, text
    /// fields that open only at the start of a line, and its limits on lines and names.
    Strict = 2,
}

impl Reading {
    /// All readings, by their numbers.
    const ALL: [Reading; 2] = [Reading::First, Reading::Strict];

    /// The reading's number in the calls of the header.
    pub fn number(self) -> u64 {
        self as u64
    }

    /// The reading of this number.
    pub fn of_number(number: u64) -> Option<Reading> {
        let before = usize::try_from(number.checked_sub(1)?).ok()?;
        Reading::ALL.get(before).copied()
    }
}

#[cfg(test)]
mod tests {
    use super::*;

    #[test]
    fn readings_and_numbers_go_both_ways() {
        assert_eq!(Reading::First.number(), 1);
        assert_eq!(Reading::Strict.number(), 2);
        for reading in Reading::ALL {
            assert_eq!(Reading::of_number(reading.number()), Some(reading));
        }
        for number in [0, 3, 255, u64::MAX] {
            assert_eq!(Reading::of_number(number), None);
        }
    }

    #[test]
    fn the_first_is_taken_where_none_is_named() {
        assert_eq!(Reading::default(), Reading::First);
    }
}
