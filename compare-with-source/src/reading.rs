//! The readings of a text.

/// Which rules a text is read by.
#[derive(Debug, Clone, Copy, PartialEq, Eq)]
pub enum Reading {
    /// Document 01's, which is the source's.
    First,
    /// Document 02's: the standard's own.
    Strict,
}

impl Reading {
    /// The number that names it in the library's calls.
    #[cfg(feature = "library")]
    pub fn number(self) -> u64 {
        match self {
            Reading::First => 1,
            Reading::Strict => 2,
        }
    }

    /// The other one.
    #[cfg(feature = "library")]
    pub fn other(self) -> Reading {
        match self {
            Reading::First => Reading::Strict,
            Reading::Strict => Reading::First,
        }
    }

    /// The reading of this name.
    pub fn named(name: &str) -> Option<Reading> {
        match name {
            "first" => Some(Reading::First),
            "strict" => Some(Reading::Strict),
            _ => None,
        }
    }
}
