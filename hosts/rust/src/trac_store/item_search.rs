// Generated from crates/trac_store/src/item_search.rt by hosts/rust/generate, and never edited.
//! Finds gaps, characters and texts among the cells of a body.

use crate::trac_store::borders::{first_place, tag_borders};
use crate::trac_space::{Cell, Part, Space, is_character};

// Whether the cell is a gap.
#[inline]
fn is_gap(cell: &Cell) -> bool
{
    matches!(cell, Cell::Gap(_))
}

/// The place of the first gap at `from` or after. None if there is none.
#[inline]
pub fn first_gap(cells: &[Cell], from: u32) -> Option<u32>
{
    for i in from..cells.len() as u32 {
        if is_gap(&cells[i as usize]) {
            return Some(i);
        }
    }
    None
}

/// The place of the first character at `from` or after. None if there is none.
pub fn first_character(cells: &[Cell], from: u32) -> Option<u32>
{
    for i in from..cells.len() as u32 {
        if is_character(&cells[i as usize]) {
            return Some(i);
        }
    }
    None
}

/// The place of the last character before `from`. None if there is none.
pub fn last_character(cells: &[Cell], from: u32) -> Option<u32>
{
    let mut end = from;
    while end > 0 {
        end -= 1;
        if is_character(&cells[end as usize]) {
            return Some(end);
        }
    }
    None
}

/// The first place at `from` or after where a text, a part of neutral, stands in a part of the store. None
/// if there is none.
///
/// Places count from the beginning of the part of the store. The search takes one pass over that part and
/// two over the text. Afterwards nothing has changed.
pub fn find_text(space: &mut Space, body: Part, from: u32, part: Part) -> Option<u32>
{
    tag_borders(space, part);
    let text = space.neutral_part(part.from, part.to);
    let found = first_place(space.store_part(body.from, body.to), from, text);
    space.clear_neutral_tags(part.from, part.to);
    found
}
