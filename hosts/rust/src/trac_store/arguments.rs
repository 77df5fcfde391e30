// Generated from crates/trac_store/src/arguments.rt by hosts/rust/generate, and never edited.
//! Finds the first comma mark, where an argument of a call ends.

use crate::trac_space::{Cell, are_characters};

/// How many cells stand before the first comma mark; all of them if there is none.
#[inline]
pub fn before_comma(cells: &[Cell]) -> u32
{
    if cells.len() < 4 {
        return before_near_comma(cells);
    }
    if let Cell::Comma = cells[0] {
        return 0;
    }
    if let Cell::Comma = cells[1] {
        return 1;
    }
    if let Cell::Comma = cells[2] {
        return 2;
    }
    if let Cell::Comma = cells[3] {
        return 3;
    }
    match cells.get(4) {
        Some(Cell::Comma) | None => 4,
        Some(_) => before_far_comma(cells),
    }
}

// How many cells stand before the first comma mark, if the first four are none. Looks at eight cells in
// a turn.
#[inline(never)]
fn before_far_comma(cells: &[Cell]) -> u32
{
    let mut i = 4;
    while cells.len() - i >= 8 && are_characters(cells, i) {
        i += 8;
    }
    i as u32 + before_near_comma(&cells[i..])
}

// How many cells stand before the first comma mark; all of them if there is none. Looks at two cells in
// a turn.
#[inline]
fn before_near_comma(cells: &[Cell]) -> u32
{
    let mut i = 0;
    while i + 1 < cells.len() {
        if let Cell::Comma = cells[i] {
            return i as u32;
        }
        if let Cell::Comma = cells[i + 1] {
            return i as u32 + 1;
        }
        i += 2;
    }
    match cells.get(i) {
        Some(Cell::Comma) | None => i as u32,
        Some(_) => i as u32 + 1,
    }
}
