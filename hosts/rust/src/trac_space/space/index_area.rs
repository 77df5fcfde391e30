// Generated from crates/trac_space/src/space/index_area.rt by hosts/rust/generate, and never edited.
//! The index area, and the free cells beside it.

use super::Space;
use crate::trac_space::block::blank;
use crate::trac_space::cell::Cell;
use crate::trac_space::copies::copy_cells;

impl<'a> Space<'a> {
    /// How many cells are free beside the index area.
    #[inline]
    pub fn free_beside_index(&self) -> u32
    {
        self.end - (self.store + self.neutral + self.active)
    }

    // Whether `n` more cells fit. Drops the index area if the cells fit only without it.
    #[inline]
    pub(super) fn try_reserve(&mut self, n: usize) -> bool
    {
        n <= self.free_beside_index() as usize || self.try_reserve_without_index(n)
    }

    // Whether `n` more cells fit, which are too many beside the index area. Drops the list if they fit.
    #[inline(never)]
    pub(super) fn try_reserve_without_index(&mut self, n: usize) -> bool
    {
        if (self.free() as usize) < n {
            return false;
        }
        self.drop_index_area();
        true
    }

    /// Drops the index area if `n` more cells fit only without it; no answer depends on it. The cells must
    /// fit.
    #[inline]
    pub fn reserve(&mut self, n: u32)
    {
        if self.free_beside_index() < n {
            self.drop_index_area();
        }
    }

    /// How many cells the index area has.
    #[inline]
    pub fn index_area_len(&self) -> u32
    {
        self.room() - self.end
    }

    /// The cells of the index area, not copied.
    #[inline]
    pub fn index_area_cells(&self) -> &[Cell]
    {
        &self.cells[self.end as usize..]
    }

    /// Replaces the cell at place `i` of the index area.
    #[inline]
    pub fn set_index_area_at(&mut self, i: u32, cell: Cell)
    {
        self.cells[(self.end + i) as usize] = cell;
    }

    /// Replaces the index area by one of `n` cells, each the byte 0. The cells must be free.
    pub fn take_index_area(&mut self, n: u32)
    {
        self.move_active(n);
        self.blank_index_area();
    }

    /// Makes each cell of the index area the byte 0.
    pub fn blank_index_area(&mut self)
    {
        let start = self.end as usize;
        blank(&mut self.cells[start..]);
    }

    /// Drops the index area.
    #[inline(never)]
    pub fn drop_index_area(&mut self)
    {
        self.move_active(0);
    }

    // Moves active so that `n` cells stand behind it. They are the index area, and unspecified.
    fn move_active(&mut self, n: u32)
    {
        let end = self.room() - n;
        let start = (self.end - self.active) as usize;
        let to = (end - self.active) as usize;
        copy_cells(self.cells, start, self.end as usize, to);
        self.end = end;
    }
}
