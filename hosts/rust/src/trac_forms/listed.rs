// Generated from crates/trac_forms/src/listed.rt by hosts/rust/generate, and never edited.
//! Reads the forms of a `Work` one after the other. Nothing here changes a cell.

use crate::trac_forms::form_finder::FormFinder;
use crate::trac_forms::item::FormId;
use crate::trac_forms::work::Work;
use crate::trac_language::Item;
use crate::trac_space::{Cell, characters_from};
use crate::trac_store::{Located, heads_of, item_of, number_in_head};

/// A form as it stands in the block. You can read it, and not change it.
pub struct StoredForm<'a> {
    name: &'a [Cell],
    body: &'a [Cell],
    pointer: u32,
}

impl<'a> StoredForm<'a> {
    /// The name, a cell for each character.
    pub fn name(&self) -> &[Cell]
    {
        self.name
    }

    /// How many items the body has.
    #[inline]
    pub fn body_len(&self) -> u32
    {
        self.body.len() as u32
    }

    /// The item at place `i` of the body, from 0. None if it has no such place.
    #[inline]
    pub fn item(&self, i: u32) -> Option<Item>
    {
        match self.body.get(i as usize) {
            Some(cell) => Some(item_of(cell)),
            None => None,
        }
    }

    /// The cells of the characters that stand in a row from place `from` of the body on, up to place `to` at
    /// most. Only a gap ends them before `to`.
    #[inline]
    pub fn run(&self, from: u32, to: u32) -> &[Cell]
    {
        let body = self.body;
        let cells = &body[from as usize..to as usize];
        let count = characters_from(cells, 0, cells.len());
        &cells[..count]
    }

    /// The pointer: the place in the body, from 0 to its length, from which a partial call goes on
    /// (Mooers 1966).
    #[inline]
    pub fn pointer(&self) -> u32
    {
        self.pointer
    }
}

/// An iterator over forms, in the order in which they were defined.
pub struct Forms<'a> {
    // The cells of the forms still to come, and how many forms these are.
    cells: &'a [Cell],
    count: u32,
}

impl<'a> Forms<'a> {
    /// How many forms are still to come.
    pub fn len(&self) -> u32
    {
        self.count
    }
}

impl<'a> Iterator for Forms<'a> {
    type Item = StoredForm<'a>;

    fn next(&mut self) -> Option<StoredForm<'a>> {
        if self.count == 0 {
            return None;
        }
        let name_end = 3 + number_in_head(self.cells[0]) as usize;
        let end = name_end + number_in_head(self.cells[1]) as usize;
        let form = StoredForm {
            name: &self.cells[3..name_end],
            body: &self.cells[name_end..end],
            pointer: number_in_head(self.cells[2]),
        };
        self.cells = &self.cells[end..];
        self.count -= 1;
        Some(form)
    }
}

impl<'a> Work<'a> {
    /// Iterates over the forms, in the order in which they were defined.
    pub fn listed(&self) -> Forms<'_>
    {
        Forms {
            cells: self.space.store_part(0, self.space.store_len()),
            count: self.count,
        }
    }

    /// The form at place `k` of the list, from 0, to be read. None past the last. Walks there from the form
    /// used last, or from the first form if the one used last stands behind it.
    pub fn listed_at(&self, k: u32) -> Option<StoredForm<'_>>
    {
        if k < self.count {
            Some(self.stored(FormId(k)))
        } else {
            None
        }
    }

    /// The form with this name, to be read. None if no form has it. The name needn't stand in the block. The
    /// search takes the index if there is one.
    pub fn stored_named(&self, name: &[Cell]) -> Option<StoredForm<'_>>
    {
        let mut search_cost = 0;
        let finder = FormFinder::new(&self.space, self.count, self.last);
        match finder.find_by_name(name, &mut search_cost) {
            Some(form) => Some(self.stored_at(form)),
            None => None,
        }
    }

    /// The form, to be read.
    pub fn stored(&self, form: FormId) -> StoredForm<'_>
    {
        self.stored_at(self.locate(form))
    }

    // A form whose place is known, to be read.
    fn stored_at(&self, form: Located) -> StoredForm<'_>
    {
        let heads = heads_of(&self.space, form);
        let from = form.start + 3 + heads.name;
        StoredForm {
            name: self.space.store_part(form.start + 3, from),
            body: self.space.store_part(from, from + heads.body),
            pointer: heads.pointer,
        }
    }
}
