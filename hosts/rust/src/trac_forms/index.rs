// Generated from crates/trac_forms/src/index.rt by hosts/rust/generate, and never edited.
//! The index of the forms: it is made once searches have cost enough, and follows each change of the forms.
//!
//! It is a table in the index area, laid out as the `IndexedForms` of `trac_store` read it.

use crate::trac_forms::form_finder::FORMS_FOR_INDEX;
use crate::trac_space::{Cell, Space};
use crate::trac_store::{FIRST_FORM, Located, end_of, hash, heads_of, number, open_slot};

// Enters a form into the table, in this slot.
#[inline]
fn put_entry(space: &mut Space, slot: u32, form: Located)
{
    let quarter = space.index_area_len() / 4;
    space.set_index_area_at(slot, Cell::Head(form.number));
    space.set_index_area_at(2 * quarter + form.number, Cell::Head(form.start));
    space.set_index_area_at(3 * quarter + form.number, Cell::Head(slot));
}

// Enters a form into the table, whose name has the hash `first`. False, with nothing changed, if no slot
// near is open.
fn add(space: &mut Space, first: usize, form: Located) -> bool
{
    match open_slot(space.index_area_cells(), first) {
        None => false,
        Some(slot) => {
            put_entry(space, slot, form);
            true
        }
    }
}

// Enters a form into the table of the forms before it, if there is a table. Drops the table if it has no
// place for the form.
#[inline(always)]
fn index_form(space: &mut Space, form: Located)
{
    if space.index_area_len() == 0 {
        return;
    }
    let heads = heads_of(space, form);
    let from = form.start + 3;
    let to = from + heads.name;
    let first = hash(space.store_part(from, to));
    if form.number >= space.index_area_len() / 4 || !add(space, first, form) {
        space.drop_index_area();
    }
}

// Enters the last form into the index of the forms before it, if there is an index. A full index is
// replaced by a larger one, or dropped if there is no room.
#[inline(always)]
pub(crate) fn index_last(space: &mut Space, form: Located)
{
    if form.number >= space.index_area_len() / 4 && space.index_area_len() > 0 {
        grow_index(space, form.number + 1);
    } else {
        index_form(space, form);
    }
}

// Replaces the table by a larger one of all forms, or drops it if there is no room.
#[inline(never)]
fn grow_index(space: &mut Space, count: u32)
{
    if !index_fitting(space, count) {
        space.drop_index_area();
    }
}

// Frees the slot of form `k`: a search goes on past it, and a new form may take it.
#[inline]
fn bury(space: &mut Space, k: u32)
{
    let quarter = space.index_area_len() / 4;
    let home = number(space.index_area_cells()[(3 * quarter + k) as usize]);
    space.set_index_area_at(home, Cell::Comma);
}

// Renumbers form `k` in the table as form `k - 1`, which begins `cells` cells lower.
#[inline]
fn bring_forward(space: &mut Space, k: u32, cells: u32)
{
    let quarter = space.index_area_len() / 4;
    let home = number(space.index_area_cells()[(3 * quarter + k) as usize]);
    let start = number(space.index_area_cells()[(2 * quarter + k) as usize]);
    let form = Located {
        number: k - 1,
        start: start - cells,
    };
    put_entry(space, home, form);
}

// Notes in the table that form `k` begins `cells` cells lower.
#[inline]
fn start_earlier(space: &mut Space, k: u32, cells: u32)
{
    let place = 2 * (space.index_area_len() / 4) + k;
    let start = number(space.index_area_cells()[place as usize]);
    space.set_index_area_at(place, Cell::Head(start - cells));
}

// Removes a form from the index of `count` forms, if there is one, and renumbers those behind it.
#[inline(always)]
pub(crate) fn unindex(space: &mut Space, form: Located, count: u32)
{
    if space.index_area_len() == 0 {
        return;
    }
    let cells = end_of(space, form) - form.start;
    bury(space, form.number);
    for next in form.number + 1..count {
        bring_forward(space, next, cells);
    }
}

// Notes in the index of `count` forms, if there is one, that the forms behind form `k` begin `cells` cells
// lower.
pub(crate) fn shift_starts(space: &mut Space, k: u32, count: u32, cells: u32)
{
    if cells == 0 {
        return;
    }
    if space.index_area_len() == 0 {
        return;
    }
    for next in k + 1..count {
        start_earlier(space, next, cells);
    }
}

// Empties the index of `count` forms, or drops it if it is far too large for them.
pub(crate) fn clear_index(space: &mut Space, count: u32)
{
    if space.index_area_len() / 32 > count {
        space.drop_index_area();
    } else {
        space.blank_index_area();
    }
}

// Makes a new table of all forms, with `cells` cells, which must fit.
fn index_all(space: &mut Space, count: u32, cells: u32)
{
    space.take_index_area(cells);
    index_from(space, FIRST_FORM, count);
}

// Enters the forms from `first` on into the table of the forms before it, if there is a table.
pub(crate) fn index_from(space: &mut Space, first: Located, count: u32)
{
    if space.index_area_len() == 0 {
        return;
    }
    let mut start = first.start;
    for k in first.number..count {
        let form = Located { number: k, start };
        index_form(space, form);
        start = end_of(space, form);
    }
}

// Removes the forms from number `k` on from the table of `count` forms, if there is one.
pub(crate) fn unindex_from(space: &mut Space, k: u32, count: u32)
{
    if space.index_area_len() == 0 {
        return;
    }
    let mut left = count;
    while left > k {
        left -= 1;
        bury(space, left);
    }
}

// How many forms a table has places for that is made for `count` forms: one more at least.
fn index_places(count: u32) -> u32
{
    (count + 1).next_power_of_two().max(16)
}

// How many cells a table for `count` forms has. It gets places for four times as many forms if `most` cells
// are enough for that, so that it lasts for a while.
fn index_cells(count: u32, most: u32) -> u32
{
    let many = 4 * index_places(4 * count);
    if many <= most {
        many
    } else {
        4 * index_places(count)
    }
}

// Makes a new table of all forms if half of the free cells are enough for it. False, with nothing changed,
// if they aren't.
fn index_fitting(space: &mut Space, count: u32) -> bool
{
    let most = space.free() / 2;
    let cells = index_cells(count, most);
    if cells > most {
        return false;
    }
    index_all(space, count, cells);
    true
}

// To make a table costs, for each form, as much as to look at this many forms or slots.
const INDEX_COST: u32 = 8;

// Builds the index once searches have cost as much, by `search_cost`, and resets their cost. The index
// takes free cells, which still count as free; nothing else changes. This processor's own choice.
#[inline]
pub(crate) fn keep_index(space: &mut Space, count: u32, search_cost: &mut u32)
{
    if count >= FORMS_FOR_INDEX && *search_cost / INDEX_COST > count {
        index_worthwhile(space, count, search_cost);
    }
}

// Builds the index, and resets the cost of searches, if that also pays for the move of active.
#[inline(never)]
fn index_worthwhile(space: &mut Space, count: u32, search_cost: &mut u32)
{
    if (*search_cost / INDEX_COST).saturating_sub(count) < space.active_len() / 256 {
        return;
    }
    *search_cost = 0;
    index_fitting(space, count);
}
