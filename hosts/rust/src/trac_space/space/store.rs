// Generated from crates/trac_space/src/space/store.rt by hosts/rust/generate, and never edited.
//! Changes of the store where it stands.

use super::Space;
use crate::trac_space::cell::Cell;
use crate::trac_space::copies::{LOWER, copy_apart, copy_cells, copy_higher};

impl<'a> Space<'a> {
    /// Appends `n` cells to the store, which are unspecified. They must fit beside the index area.
    #[inline(always)]
    pub fn open_store(&mut self, n: u32)
    {
        let start = self.store as usize;
        let end = (self.store + self.neutral) as usize;
        copy_higher(self.cells, start, end, start + n as usize);
        self.store += n;
    }

    /// Removes the cells of the store from place `a` up to `b`.
    pub fn remove_store(&mut self, a: u32, b: u32)
    {
        let end = (self.store + self.neutral) as usize;
        copy_cells(self.cells, b as usize, end, a as usize);
        self.store -= b - a;
    }

    /// Copies the cells of the store from place `a` up to `b` to place `to`, which is `a` or lower.
    pub fn move_in_store(&mut self, a: u32, b: u32, to: u32)
    {
        copy_cells(self.cells, a as usize, b as usize, to as usize);
    }

    /// Replaces the cell at place `i` of the store by one that is no call mark.
    pub fn write_store(&mut self, i: u32, cell: Cell)
    {
        self.cells[i as usize] = cell;
    }

    /// Copies the cells of neutral from place `a` up to `b` over as many cells of the store, from place
    /// `at` on.
    #[inline]
    pub fn write_part(&mut self, at: u32, a: u32, b: u32)
    {
        let start = (self.store + a) as usize;
        copy_apart::<LOWER>(self.cells, start, (b - a) as usize, at as usize);
    }
}
