// Generated from crates/trac_store/src/indexed_forms.rt by hosts/rust/generate, and never edited.
//! The index: a table by which a form is found from its name.
//!
//! The first half of the table is slots: a form's number stands in the slot that the hash of its name
//! gives, or in the next open one behind it. The third quarter says where each form begins in the store,
//! the last quarter which slot it has.

use crate::trac_store::form_cells::{FormCells, is_text};
use crate::trac_store::form_heads::number;
use crate::trac_store::located::Located;
use crate::trac_space::{Cell, byte_in};

// An odd number near 2^64 divided by the golden ratio.
const MIXER: u64 = 11_400_714_819_323_198_485;

/// The hash of a name: its first slot is the remainder by the number of slots.
#[inline]
pub fn hash(name: &[Cell]) -> usize
{
    let mut number = 0u64;
    let mut left = name.len();
    while left > 0 {
        left -= 1;
        number = number
            .wrapping_add(u64::from(byte_in(&name[left])))
            .wrapping_mul(MIXER);
    }
    (number / 0x1_0000_0000) as usize
}

/// The cells of forms, one form behind the other, and the table by which a form is found from its name.
pub struct IndexedForms<'s> {
    forms: FormCells<'s>,
    table: &'s [Cell],
}

impl<'s> IndexedForms<'s> {
    /// The forms, and their table.
    #[inline(always)]
    pub fn of(forms: &FormCells<'s>, table: &'s [Cell]) -> IndexedForms<'s>
    {
        IndexedForms {
            forms: FormCells {
                cells: forms.cells,
                count: forms.count,
            },
            table,
        }
    }

    // Where form `k` begins, by the table, if it has this name. None if it has another.
    #[inline]
    fn start_if_named(&self, k: u32, name: &[Cell]) -> Option<u32>
    {
        let slots = 2 * (self.table.len() / 4);
        let start = number(self.table[slots + k as usize]);
        let cells = self.forms.name_cells(Located { number: k, start });
        if cells.len() != name.len() {
            return None;
        }
        if is_text(cells, name) {
            Some(start)
        } else {
            None
        }
    }

    /// Finds the form with this name by the table. None if no form has it. Adds to `search_cost` how many
    /// slots the search looked at beyond a few.
    #[inline(always)]
    pub fn look_up(&self, name: &[Cell], search_cost: &mut u32) -> Option<Located>
    {
        let table = self.table;
        let slots = 2 * (table.len() / 4);
        let first = hash(name);
        for i in 0..slots {
            if i >= SLOTS_AT_NO_COST {
                *search_cost = search_cost.saturating_add(1);
            }
            match table[(first + i) & (slots - 1)] {
                Cell::Byte(_) => return None,
                Cell::Head(k) => {
                    if let Some(start) = self.start_if_named(k, name) {
                        return Some(Located { number: k, start });
                    }
                }
                _ => {}
            }
        }
        None
    }
}

// A search looks at this many slots without cost.
const SLOTS_AT_NO_COST: usize = 6;

// If none of this many slots is open for a new form, the table is dropped. With many names of one hash it
// would take long to fill, and be no faster to search than the forms.
const MOST_SLOTS: usize = 128;

/// The first open slot of a table for a name with the hash `first`. None if as many slots as a search for
/// one looks at are taken.
#[inline]
pub fn open_slot(table: &[Cell], first: usize) -> Option<u32>
{
    let slots = 2 * (table.len() / 4);
    for i in 0..slots.min(MOST_SLOTS) {
        let slot = (first + i) & (slots - 1);
        if !is_taken(table[slot]) {
            return Some(slot as u32);
        }
    }
    None
}

// Whether a form has the slot.
#[inline]
fn is_taken(cell: Cell) -> bool
{
    match cell {
        Cell::Head(_) => true,
        _ => false,
    }
}
