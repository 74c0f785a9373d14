//! The source's lexer, unchanged.

use crate::error::PDBError;
use crate::mmcif::lexer::lex_cif;
use crate::mmcif::lexitem::DataBlock;

/// What the source makes of a text.
pub fn read(text: &str) -> Result<DataBlock, PDBError> {
    lex_cif(text)
}

/// Whether the source reads a text.
pub fn reads(text: &str) -> bool {
    lex_cif(text).is_ok()
}
