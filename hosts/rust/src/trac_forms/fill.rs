// Generated from crates/trac_forms/src/fill.rt by hosts/rust/generate, and never edited.
//! Copies the rest of a form with its gaps filled, to the front of active (Mooers 1966). Takes the character at
//! the pointer.

use crate::trac_forms::item::FormId;
use crate::trac_forms::work::Work;
use crate::trac_space::{Cell, Part, Space};
use crate::trac_store::{Located, fill_items, heads_of};

impl<'a> Work<'a> {
    /// Copies the form's body from its pointer on to the front of active, each gap k replaced by argument k:
    /// the k-th, from 1, of the texts between the comma marks of neutral from place `first` up to `end`, or
    /// nothing if there is no such text. Gives how many characters these are. None, with nothing changed, if the
    /// copy doesn't fit.
    #[inline(always)]
    pub fn load_filled(&mut self, form: FormId, first: u32, end: u32) -> Option<u32>
    {
        let at = self.locate(form);
        let items = self.called_place(at);
        let texts = Part {
            from: first,
            to: end,
        };
        fill_items(&mut self.space, items, texts)
    }

    // The part of the store that a call of the form copies: its body from its pointer on.
    #[inline(always)]
    fn called_place(&self, form: Located) -> Part
    {
        let heads = heads_of(&self.space, form);
        let place = form.start + 3 + heads.name;
        Part {
            from: place + heads.pointer,
            to: place + heads.body,
        }
    }
}

impl<'a> Work<'a> {
    /// Takes the next item of the form from its pointer on, if it is a character and a cell is free for it:
    /// copies it to the end of neutral, and moves the pointer behind it. False, with nothing changed, if it
    /// is no character, if no item follows, or if no cell is free.
    #[inline]
    pub fn take_character(&mut self, form: FormId) -> bool
    {
        let pointer = self.pointer(form);
        let at = self.locate(form);
        if !self.put_next(at) {
            return false;
        }
        self.set_pointer(form, pointer + 1);
        true
    }

    // Copies the next item of the form from its pointer on to the end of neutral, if it is a character and
    // a cell is free for it.
    #[inline(always)]
    fn put_next(&mut self, form: Located) -> bool
    {
        let items = self.called_place(form);
        if items.from == items.to {
            return false;
        }
        put_character(&mut self.space, items.from)
    }
}

// Copies the cell at a place of the store to the end of neutral, if it is a character and a cell is free
// for it.
#[inline(always)]
fn put_character(space: &mut Space, place: u32) -> bool
{
    match space.store_at(place) {
        Some(Cell::Byte(byte)) => space.push_neutral(Cell::Byte(byte)),
        _ => false,
    }
}
