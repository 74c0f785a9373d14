//! Stand-in for a file that is not at hand: how severe an error is. The lexer names one level only.

/// The severity that the lexer gives to each of its errors.
#[derive(Debug, Clone, Copy, PartialEq, Eq)]
pub enum ErrorLevel {
    /// Nothing could be read.
    BreakingError,
}
