// Generated from crates/trac_forms/src/form_writing.rt by hosts/rust/generate, and never edited.
//! Writes the cells of a new form into the store.

use crate::trac_forms::body::{Body, TextBody};
use crate::trac_language::Item;
use crate::trac_space::{Cell, Part, Space};

// Appends the cells of a new form to the store: three head cells, its name and its text, both copied from
// neutral, and pointer 0. They must fit; the index area is dropped if they fit only without it.
pub(crate) fn store_form(space: &mut Space, name: Part, text: Part)
{
    let need = 3 + (name.to - name.from) + (text.to - text.from);
    space.reserve(need);
    let start = space.store_len();
    space.open_store(need);
    write_form(space, start, name, text);
}

// Writes the cells of a new form over the last cells of the store, from place `start` on.
fn write_form(space: &mut Space, start: u32, name: Part, text: Part)
{
    space.write_store(start, Cell::Head(name.to - name.from));
    space.write_store(start + 1, Cell::Head(text.to - text.from));
    space.write_store(start + 2, Cell::Head(0));
    space.write_part(start + 3, name.from, name.to);
    space.write_part(start + 3 + (name.to - name.from), text.from, text.to);
}

// Appends the cells of a form that is given to the store: three head cells, its name and the `len` items of its
// body. They must fit; the index area is dropped if they fit only without it.
pub(crate) fn store_given<B: Body>(
    space: &mut Space,
    name: &[u8],
    body: &mut B,
    len: u32,
    pointer: u32,
)
{
    let need = 3 + name.len() as u32 + len;
    space.reserve(need);
    let start = space.store_len();
    space.open_store(need);
    write_given(space, start, name, body, len, pointer);
}

// Writes the cells of a form that is given over the last cells of the store, from place `start` on.
fn write_given<B: Body>(
    space: &mut Space,
    start: u32,
    name: &[u8],
    body: &mut B,
    len: u32,
    pointer: u32,
)
{
    let name_len = name.len() as u32;
    space.write_store(start, Cell::Head(name_len));
    space.write_store(start + 1, Cell::Head(len));
    space.write_store(start + 2, Cell::Head(pointer));
    write_items(space, start + 3, &mut TextBody::of(name), name_len);
    write_items(space, start + 3 + name_len, body, len);
}

// Writes the `len` items of a body over as many cells of the store, from place `at` on.
fn write_items<B: Body>(space: &mut Space, at: u32, body: &mut B, len: u32)
{
    for i in 0..len {
        space.write_store(at + i, cell_of(body.next_item()));
    }
}

// The cell of an item.
fn cell_of(item: Item) -> Cell
{
    match item {
        Item::Byte(byte) => Cell::Byte(byte),
        Item::Gap(ordinal) => Cell::Gap(ordinal),
    }
}
