// Generated from crates/trac_store/src/form_heads.rt by hosts/rust/generate, and never edited.
//! Reads the heads of forms, the three cells before a form's name, and the items of their bodies.

use crate::trac_store::located::Located;
use crate::trac_language::Item;
use crate::trac_space::{Cell, Space};

/// The number in the head cell at place `i` of the store, 0 if no head cell stands there.
#[inline]
pub fn head(space: &Space, i: u32) -> u32
{
    match space.store_at(i) {
        Some(cell) => number(cell),
        None => 0,
    }
}

/// The numbers in the three head cells of a form: the lengths of its name and of its body, in cells, and
/// its pointer, a place in the body.
#[derive(Clone, Copy, Debug)]
pub struct Heads {
    pub name: u32,
    pub body: u32,
    pub pointer: u32,
}

/// The numbers in the three cells from place `start` of the store on. Each cell is tested: one that is no
/// head gives 0.
#[inline]
pub fn tested_heads(space: &Space, start: u32) -> Heads
{
    let cells = space.store_part(start, start + 3);
    Heads {
        name: number(cells[0]),
        body: number(cells[1]),
        pointer: number(cells[2]),
    }
}

/// The three head numbers of a form whose place is known. The cells are read without a test. Behind them
/// stand the name and the body, and behind these the next form.
#[inline]
pub fn heads_of(space: &Space, form: Located) -> Heads
{
    let cells = space.store_part(form.start, form.start + 3);
    Heads {
        name: number_in_head(cells[0]),
        body: number_in_head(cells[1]),
        pointer: number_in_head(cells[2]),
    }
}

/// Where a form whose place is known ends, and the next one begins.
#[inline(always)]
pub fn end_of(space: &Space, form: Located) -> u32
{
    form.start + 3 + head(space, form.start) + head(space, form.start + 1)
}

/// The item in the cell at place `i` of the store. A gap of ordinal 0 if no item stands there.
pub fn item_in(space: &Space, i: u32) -> Item
{
    match space.store_at(i) {
        Some(cell) => item_of(&cell),
        None => Item::Gap(0),
    }
}

/// The item in a cell. A gap of ordinal 0 if the cell holds no item.
pub fn item_of(cell: &Cell) -> Item
{
    match *cell {
        Cell::Byte(byte) => Item::Byte(byte),
        Cell::Gap(ordinal) => Item::Gap(ordinal),
        _ => Item::Gap(0),
    }
}

/// The number in a head cell, 0 for any other cell.
#[inline]
pub fn number(cell: Cell) -> u32
{
    match cell {
        Cell::Head(number) => number,
        _ => 0,
    }
}

// A match arm that is never reached reads from this array without elements, so the compiler leaves out
// the test for that arm.
const UNREACHED_NUMBER: [u32; 0] = [];

/// The number in a head cell, read without a test.
#[inline]
pub fn number_in_head(cell: Cell) -> u32
{
    match cell {
        Cell::Head(number) => number,
        _ => UNREACHED_NUMBER[0],
    }
}
