// Generated from crates/trac_space/src/block.rt by hosts/rust/generate, and never edited.
//! The block of cells that you lend to a `Space`.

use crate::trac_space::cell::Cell;

// Blank cells are copied this many at a time. The C library needs one turn of its loop less for 254
// cells than for 256.
const BLANKS_AT_ONCE: usize = 254;

const BLANKS: [Cell; BLANKS_AT_ONCE] = [Cell::Byte(0); BLANKS_AT_ONCE];

const BLANK_BLOCK: [Cell; 8] = [Cell::Byte(0); 8];

// Makes each of the cells the byte 0.
pub(crate) fn blank(cells: &mut [Cell])
{
    blank_by(cells, &BLANKS);
}

// Makes each of the cells the byte 0, by copies of the blank cells in `part`.
fn blank_by(cells: &mut [Cell], part: &[Cell])
{
    let mut done = 0;
    while done < cells.len() {
        let end = done + part.len().min(cells.len() - done);
        cells[done..end].copy_from_slice(&part[..end - done]);
        done = end;
    }
}

// Makes each of eight cells the byte 0, with one copy.
#[inline(always)]
pub(crate) fn blank_block(cells: &mut [Cell])
{
    if let Some(block) = cells.first_chunk_mut::<8>() {
        *block = BLANK_BLOCK;
    }
}
