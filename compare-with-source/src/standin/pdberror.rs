//! Stand-in for a file that is not at hand: an error as the lexer makes it. It keeps all it is given.

use super::{Context, ErrorLevel};

/// An error with its level, a short and a long description, and what it shows.
#[derive(Debug, Clone, PartialEq, Eq)]
pub struct PDBError {
    level: ErrorLevel,
    short: String,
    long: String,
    context: Context,
}

impl PDBError {
    /// An error of these four parts.
    pub fn new(
        level: ErrorLevel,
        short: impl Into<String>,
        long: impl Into<String>,
        context: Context,
    ) -> Self {
        PDBError {
            level,
            short: short.into(),
            long: long.into(),
            context,
        }
    }

    /// The short description, which tells the lexer's errors apart.
    pub fn short(&self) -> &str {
        &self.short
    }

    /// The long description, which holds the remainder of a loop.
    pub fn long(&self) -> &str {
        &self.long
    }

    /// The place, as far as the lexer keeps it.
    pub fn context(&self) -> &Context {
        &self.context
    }
}
