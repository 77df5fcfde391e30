// Generated from crates/trac_image/src/fitting.rt by hosts/rust/generate, and never edited.
//! Whether the forms of an image can stand in a machine.

use crate::trac_image::items::has_items;
use crate::trac_image::reading::{behind_form, has_room, heads_of, name_of};

/// What stands behind so many forms at the front of a text, if each of them can stand in a machine and all of them
/// have at most `room` cells; else None.
pub(crate) fn behind_fit_forms(forms: &[u8], count: u32, room: u64) -> Option<&[u8]>
{
    let mut rest = forms;
    let mut left = room;
    for i in 0..count {
        if !is_fit(rest) {
            return None;
        }
        let cells = cells_of(rest);
        if left < cells {
            return None;
        }
        left -= cells;
        rest = behind_form(rest);
    }
    Some(rest)
}

/// Whether the form at the front of a text can stand in a machine.
fn is_fit(text: &[u8]) -> bool
{
    let heads = heads_of(text);
    if heads.body < heads.pointer {
        return false;
    }
    if !has_room(text) {
        return false;
    }
    has_items(text)
}

/// How many cells that form takes.
fn cells_of(text: &[u8]) -> u64
{
    3 + name_of(text).len() as u64 + u64::from(heads_of(text).body)
}

/// Whether no two of so many forms have one name. Looks at each pair of them.
pub(crate) fn are_distinct(forms: &[u8], count: u32) -> bool
{
    let mut rest = forms;
    for i in 0..count {
        let others = behind_form(rest);
        if !is_new(name_of(rest), others, count - i - 1) {
            return false;
        }
        rest = others;
    }
    true
}

/// Whether none of so many forms has a name.
fn is_new(name: &[u8], forms: &[u8], count: u32) -> bool
{
    let mut rest = forms;
    for i in 0..count {
        if name_of(rest) == name {
            return false;
        }
        rest = behind_form(rest);
    }
    true
}
