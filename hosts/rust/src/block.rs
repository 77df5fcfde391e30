//! A machine over a block whose length isn't known to be in range.

use crate::{Cell, Machine};
use core::error::Error;
use core::fmt::{Display, Formatter, Result as Written};

/// The most cells that a machine's block may have.
pub const MOST_CELLS: usize = 16_777_216;

/// The block has more than [`MOST_CELLS`] cells. Nothing was done with it.
#[derive(Clone, Copy, Debug, PartialEq, Eq)]
pub struct BlockTooLong;

impl Display for BlockTooLong {
    fn fmt(&self, to: &mut Formatter<'_>) -> Written {
        write!(to, "block of more than {MOST_CELLS} cells")
    }
}

impl Error for BlockTooLong {}

impl<'a> Machine<'a> {
    /// A machine as [`Machine::over`] makes it, over a block of any length.
    ///
    /// # Errors
    /// [`BlockTooLong`] where the block has more than [`MOST_CELLS`] cells.
    pub fn try_over(block: &'a mut [Cell], steps: u64) -> Result<Machine<'a>, BlockTooLong> {
        if block.len() > MOST_CELLS {
            return Err(BlockTooLong);
        }
        Ok(Machine::over(block, steps))
    }
}
