// Generated from crates/trac_space/src/space/active_string.rt by hosts/rust/generate, and never edited.
//! The active string: what is put in front of it and taken from it.

use super::Space;
use crate::trac_space::byte_writing::write_bytes;
use crate::trac_space::cell::Cell;
use crate::trac_space::character_runs::{are_all_characters, characters_from};
use crate::trac_space::copies::{HIGHER, copy_apart};
use crate::trac_space::filling::{ArgumentTable, fill_cells};

impl<'a> Space<'a> {
    /// How many characters stand in a row from place `a` of the store on; counts up to place `b`.
    #[inline(always)]
    pub fn characters_from(&self, a: u32, b: u32) -> u32
    {
        characters_from(self.cells, a as usize, (b - a) as usize) as u32
    }

    /// Copies the cells of the store from place `a` up to `b` to the front of active, each gap k replaced
    /// by argument k: the k-th part, from 1, between the comma marks of neutral from place `first` up to
    /// `end`. These are `commas` marks, whose places `tag_commas` put there as tags. Gives how many cells these
    /// are. None, with nothing changed, if the copy doesn't fit beside the index area.
    #[inline(always)]
    pub fn load_filled(&mut self, a: u32, b: u32, first: u32, end: u32, commas: u32) -> Option<u32>
    {
        let low = (self.store + self.neutral) as usize;
        let to = (self.end - self.active) as usize;
        let given = ArgumentTable {
            start: (self.store + first) as usize,
            len: (end - first) as usize,
            commas: commas as usize,
        };
        match fill_cells(self.cells, a as usize, b as usize, low, to, given) {
            Some(start) => {
                let n = (to - start) as u32;
                self.active += n;
                Some(n)
            }
            None => None,
        }
    }

    /// Removes the first cell of active and gives it. None if active is empty.
    #[inline]
    pub fn take_active(&mut self) -> Option<Cell>
    {
        if self.active == 0 {
            return None;
        }
        let first = self.cells[(self.end - self.active) as usize];
        self.active -= 1;
        Some(first)
    }

    /// Makes the bytes of `text` the active string, which must be empty. False, with nothing changed, if
    /// they don't fit.
    pub fn load_active(&mut self, text: &[u8]) -> bool
    {
        if !self.try_reserve(text.len()) {
            return false;
        }
        self.load_bytes(text);
        true
    }

    /// Puts the bytes of `text` in front of active. They must fit beside the index area.
    #[inline]
    pub fn load_bytes(&mut self, text: &[u8])
    {
        let active = self.active + text.len() as u32;
        let start = (self.end - active) as usize;
        write_bytes(&mut self.cells[start..start + text.len()], text);
        self.active = active;
    }

    /// Empties active.
    pub fn clear_active(&mut self)
    {
        self.active = 0;
    }

    /// Removes the first `n` cells of active.
    #[inline]
    pub fn drop_active(&mut self, n: u32)
    {
        self.active -= n;
    }

    /// Copies the cells of neutral from place `a` up to `b` to the front of active. They must fit beside
    /// the index area.
    #[inline(always)]
    pub fn load_from_neutral(&mut self, a: u32, b: u32)
    {
        let active = self.active + (b - a);
        let (start, to) = ((self.store + a) as usize, (self.end - active) as usize);
        copy_apart::<HIGHER>(self.cells, start, (b - a) as usize, to);
        self.active = active;
    }

    /// Copies the cells of the store from place `a` up to `b` to the front of active. They must fit beside
    /// the index area.
    #[inline(always)]
    pub fn load_from_store(&mut self, a: u32, b: u32)
    {
        let active = self.active + (b - a);
        let to = (self.end - active) as usize;
        copy_apart::<HIGHER>(self.cells, a as usize, (b - a) as usize, to);
        self.active = active;
    }

    /// Copies the cells of the store from place `a` up to `b` to the front of active if all of them are
    /// characters. False, with nothing changed, if one isn't. They must fit beside the index area.
    #[inline(always)]
    pub fn load_characters(&mut self, a: u32, b: u32) -> bool
    {
        if !self.has_characters(a, b) {
            return false;
        }
        self.load_from_store(a, b);
        true
    }

    // Whether the cells of the store from place `a` up to `b` are all characters.
    #[inline(always)]
    fn has_characters(&self, a: u32, b: u32) -> bool
    {
        are_all_characters(self.cells, a as usize, (b - a) as usize)
    }
}
