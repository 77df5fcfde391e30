//! What the tests of the kit have by other names.
use crate::Cell;
use std::vec::Vec;

/// Why a test ended early.
pub(crate) type Fail = std::io::Error;

/// A block of so many cells, each the byte 0.
pub fn make_block(cells: u32) -> Result<Vec<Cell>, Fail> {
    Ok(std::vec![Cell::Byte(0); cells as usize])
}
