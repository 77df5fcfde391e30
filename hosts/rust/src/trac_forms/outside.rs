// Generated from crates/trac_forms/src/outside.rt by hosts/rust/generate, and never edited.
//! Defines, finds and removes forms from outside the block: their names needn't stand in it.

use crate::trac_forms::body::Body;
use crate::trac_forms::form_writing::store_given;
use crate::trac_forms::index::index_last;
use crate::trac_forms::item::Full;
use crate::trac_forms::work::Work;
use crate::trac_space::{Cell, character_of};
use crate::trac_store::{Located, end_of, heads_of};

impl<'a> Work<'a> {
    /// Makes a form of a name, the `len` items of a body and a pointer, none of which need stand in the block.
    /// It becomes the last form; an older form of that name is removed. The strings stay. This processor's own
    /// choice.
    ///
    /// `Full`, with nothing changed, if 3 cells, the name and the body don't fit while the older form is still
    /// there, as in `define`.
    pub fn put_form<B: Body>(
        &mut self,
        name: &[u8],
        body: &mut B,
        len: u32,
        pointer: u32,
    ) -> Result<(), Full>
    {
        let need = 3 + name.len() + len as usize;
        if (self.space.free() as usize) < need {
            return Err(Full);
        }
        self.delete_by_name(name);
        self.append_given(name, body, len, pointer);
        Ok(())
    }

    // Appends a form of a name, the `len` items of a body and a pointer, and enters it into the index if there
    // is one.
    fn append_given<B: Body>(&mut self, name: &[u8], body: &mut B, len: u32, pointer: u32)
    {
        let form = Located {
            number: self.count,
            start: self.space.store_len(),
        };
        store_given(&mut self.space, name, body, len, pointer);
        index_last(&mut self.space, form);
        self.count += 1;
        self.last = form;
    }

    /// Removes the form with this name, and says whether there was one. The others keep their order.
    pub fn delete_by_name(&mut self, name: &[u8]) -> bool
    {
        match self.located_by_name(name) {
            Some(form) => {
                self.remove(form);
                true
            }
            None => false,
        }
    }

    /// The place in the list, from 0, of the form with this name. None if no form has it. Looks at one form
    /// after the other.
    pub fn place_by_name(&self, name: &[u8]) -> Option<u32>
    {
        match self.located_by_name(name) {
            Some(form) => Some(form.number),
            None => None,
        }
    }

    // The form with this name. None if no form has it. Looks at one form after the other.
    fn located_by_name(&self, name: &[u8]) -> Option<Located>
    {
        let mut start = 0;
        for number in 0..self.count {
            let form = Located { number, start };
            if self.is_named(form, name) {
                return Some(form);
            }
            start = end_of(&self.space, form);
        }
        None
    }

    // Whether the form has the name.
    fn is_named(&self, form: Located, name: &[u8]) -> bool
    {
        let heads = heads_of(&self.space, form);
        let from = form.start + 3;
        is_text(self.space.store_part(from, from + heads.name), name)
    }
}

// Whether the characters of cells are these bytes.
fn is_text(cells: &[Cell], text: &[u8]) -> bool
{
    if cells.len() != text.len() {
        return false;
    }
    for i in 0..text.len() {
        if character_of(&cells[i]) != text[i] {
            return false;
        }
    }
    true
}
