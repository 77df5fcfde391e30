// Generated from crates/trac_forms/src/removal.rt by hosts/rust/generate, and never edited.
//! Removes the forms of several names in one pass.

use crate::trac_forms::marked_forms::{mark_all, take_out_marked};
use crate::trac_forms::work::Work;
use crate::trac_space::Part;
use crate::trac_store::FIRST_FORM;

impl<'a> Work<'a> {
    /// Removes the forms whose names are the texts between the comma marks of neutral from place `from` up to
    /// `end`. The others keep their order. Takes a search for each name, and one pass over the forms from the
    /// first removed one on.
    pub fn delete_named(&mut self, from: u32, end: u32)
    {
        let last = self.last;
        let names = Part { from, to: end };
        let first = mark_all(
            &mut self.space,
            self.count,
            last,
            names,
            &mut self.search_cost,
        );
        self.count = take_out_marked(&mut self.space, first, self.count);
        self.last = FIRST_FORM;
    }
}
