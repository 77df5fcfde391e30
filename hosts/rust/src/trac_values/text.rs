// Generated from crates/trac_values/src/text.rt by hosts/rust/generate, and never edited.
//! The characters of cells.

use crate::trac_space::{Cell, byte_in, character_of};

/// Whether the last of the cells is this character. False if there is no cell.
pub(crate) fn ends_with(cells: &[Cell], character: u8) -> bool
{
    !cells.is_empty() && character_of(&cells[cells.len() - 1]) == character
}

/// Whether two texts are the same, character by character: the test of `eq` (Mooers 1966).
pub fn equal(a: &[Cell], b: &[Cell]) -> bool
{
    if a.len() != b.len() {
        return false;
    }
    for i in 0..a.len() {
        if byte_in(&a[i]) != byte_in(&b[i]) {
            return false;
        }
    }
    true
}
