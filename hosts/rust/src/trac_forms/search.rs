// Generated from crates/trac_forms/src/search.rt by hosts/rust/generate, and never edited.
//! Finds places in a body. Places count items from 0; a gap is one item.

use crate::trac_forms::item::FormId;
use crate::trac_forms::work::Work;
use crate::trac_space::{Cell, Part};
use crate::trac_store::{find_text, first_character, first_gap, last_character};

impl<'a> Work<'a> {
    // The cells of the form's body.
    #[inline(always)]
    fn body(&self, form: FormId) -> &[Cell]
    {
        let body = self.body_place(form);
        self.space.store_part(body.from, body.to)
    }

    /// The place of the first gap of the form's body at `from` or after. None if there is none.
    #[inline]
    pub fn next_gap(&self, form: FormId, from: u32) -> Option<u32>
    {
        first_gap(self.body(form), from)
    }

    /// The place of the first character of the form's body at `from` or after. None if there is none.
    pub fn next_char(&self, form: FormId, from: u32) -> Option<u32>
    {
        first_character(self.body(form), from)
    }

    /// The place of the last character of the form's body before `from`. None if there is none.
    pub fn previous_char(&self, form: FormId, from: u32) -> Option<u32>
    {
        last_character(self.body(form), from)
    }

    /// Where the first occurrence of a text, a part of neutral, in the form's body at `from` or after begins
    /// and ends. None if there is none. An occurrence reaches across no gap. Takes one pass over the body and
    /// two over the text. Afterwards nothing has changed.
    pub fn occurrence(&mut self, form: FormId, from: u32, part: (u32, u32)) -> Option<(u32, u32)>
    {
        let body = self.body_place(form);
        let text = Part {
            from: part.0,
            to: part.1,
        };
        match find_text(&mut self.space, body, from, text) {
            Some(begin) => Some((begin, begin + (part.1 - part.0))),
            None => None,
        }
    }
}
