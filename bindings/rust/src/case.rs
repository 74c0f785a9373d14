//! What two values are to each other.

/// What the values of an [`Entry`](crate::Entry) are to each other.
#[derive(Debug, Clone, Copy, PartialEq, Eq, Hash)]
#[non_exhaustive]
pub enum Case {
    /// Only the old document has such a value.
    OnlyOld = 1,
    /// Only the new document has such a value.
    OnlyNew = 2,
    /// They differ, and are not both numbers.
    Different = 3,
    /// Two numbers, the old one larger.
    OldLarger = 4,
    /// Two numbers, the new one larger.
    NewLarger = 5,
    /// Two equal numbers, with uncertainties of different size; none counts as 0.
    Uncertainty = 6,
    /// Two equal numbers with uncertainties of equal size, written in other digits: `1.5` and `1.50`.
    Rewritten = 7,
}

impl Case {
    /// All cases, by their numbers.
    const ALL: [Case; 7] = [
        Case::OnlyOld,
        Case::OnlyNew,
        Case::Different,
        Case::OldLarger,
        Case::NewLarger,
        Case::Uncertainty,
        Case::Rewritten,
    ];

    /// The case's number in the list of [`compare`](crate::compare).
    pub fn number(self) -> u64 {
        self as u64
    }

    /// The case of this number.
    pub fn of_number(number: u64) -> Option<Case> {
        let before = usize::try_from(number.checked_sub(1)?).ok()?;
        Case::ALL.get(before).copied()
    }
}

#[cfg(test)]
mod tests {
    use super::*;

    #[test]
    fn cases_and_numbers_go_both_ways() {
        for number in 1..=7 {
            assert_eq!(Case::of_number(number).map(Case::number), Some(number));
        }
        for number in [0, 8, 255, u64::MAX] {
            assert_eq!(Case::of_number(number), None);
        }
    }
}
