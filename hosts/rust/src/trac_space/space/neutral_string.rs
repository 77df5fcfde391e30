// Generated from crates/trac_space/src/space/neutral_string.rt by hosts/rust/generate, and never edited.
//! The neutral string: what is appended to it, changed in it and cut from it.

use super::Space;
use crate::trac_space::byte_search::count_before;
use crate::trac_space::byte_writing::write_bytes;
use crate::trac_space::cell::{Cell, is_call, linked};
use crate::trac_space::copies::copy_cells;
use crate::trac_space::filling::tag_commas;
use crate::trac_space::tags::{clear_tags, holds_comma};

impl<'a> Space<'a> {
    /// Appends a cell to neutral. False, with nothing changed, if no cell is free.
    #[inline]
    pub fn push_neutral(&mut self, cell: Cell) -> bool
    {
        if self.free_beside_index() == 0 {
            return self.push_over_index(cell);
        }
        self.put_neutral(cell);
        true
    }

    // Appends a cell to neutral where no cell is free beside the index area, which is dropped for it. False,
    // with nothing changed, if no cell is free at all.
    #[inline(never)]
    fn push_over_index(&mut self, cell: Cell) -> bool
    {
        if !self.try_reserve_without_index(1) {
            return false;
        }
        self.put_neutral(cell);
        true
    }

    /// Appends a cell to neutral. A cell must be free beside the index area.
    #[inline]
    pub fn put_neutral(&mut self, cell: Cell)
    {
        let place = self.neutral;
        self.cells[(self.store + place) as usize] = linked(cell, place, self.top_frame);
        self.top_frame = if is_call(&cell) {
            place + 1
        } else {
            self.top_frame
        };
        self.no_comma_from = if holds_comma(&cell) {
            place + 1
        } else {
            self.no_comma_from
        };
        self.neutral = place + 1;
    }

    /// Appends cells to neutral. They must fit beside the index area.
    #[inline(always)]
    pub fn put_cells(&mut self, cells: &[Cell])
    {
        for cell in cells {
            self.put_neutral(*cell);
        }
    }

    /// Appends the bytes of `text` to neutral. False, with nothing changed, if they don't fit.
    pub fn push_bytes(&mut self, text: &[u8]) -> bool
    {
        if !self.try_reserve(text.len()) {
            return false;
        }
        self.put_bytes(text);
        true
    }

    // Appends the bytes of `text` to neutral. They must fit beside the index area.
    #[inline]
    fn put_bytes(&mut self, text: &[u8])
    {
        let start = (self.store + self.neutral) as usize;
        write_bytes(&mut self.cells[start..start + text.len()], text);
        self.neutral += text.len() as u32;
    }

    /// Appends the bytes of `text` before its first `stop` to neutral, as many as fit, and gives how many
    /// these are.
    pub fn push_before(&mut self, stop: u8, text: &[u8]) -> usize
    {
        let most = text.len().min(self.free() as usize);
        let count = count_before(stop, &text[..most]);
        self.reserve(count as u32);
        self.put_bytes(&text[..count]);
        count
    }

    /// Copies the cells of neutral from place `a` up to `b` to its end. False, with nothing changed, if
    /// they don't fit.
    #[inline]
    pub fn copy_neutral(&mut self, a: u32, b: u32) -> bool
    {
        if !self.try_reserve((b - a) as usize) {
            return false;
        }
        self.put_from_neutral(a, b);
        true
    }

    // Copies the cells of neutral from place `a` up to `b` to its end. They must fit beside the index area.
    #[inline]
    fn put_from_neutral(&mut self, a: u32, b: u32)
    {
        let start = (self.store + a) as usize;
        let end = (self.store + b) as usize;
        let to = (self.store + self.neutral) as usize;
        copy_cells(self.cells, start, end, to);
        self.neutral += b - a;
        self.no_comma_from = self.neutral;
    }

    /// Copies the cells of the store from place `a` up to `b` to the end of neutral. False, with nothing
    /// changed, if they don't fit.
    pub fn copy_store(&mut self, a: u32, b: u32) -> bool
    {
        if !self.try_reserve((b - a) as usize) {
            return false;
        }
        self.put_from_store(a, b);
        true
    }

    // Copies the cells of the store from place `a` up to `b` to the end of neutral. They must fit beside the
    // index area.
    #[inline]
    fn put_from_store(&mut self, a: u32, b: u32)
    {
        let to = (self.store + self.neutral) as usize;
        copy_cells(self.cells, a as usize, b as usize, to);
        self.neutral += b - a;
        self.no_comma_from = self.neutral;
    }

    /// Puts the places of the comma marks of neutral from place `first` up to `end` as tags on the first cells
    /// there, and gives how many they are. `clear_neutral_tags` takes them off again.
    #[inline(always)]
    pub fn tag_commas(&mut self, first: u32, end: u32) -> u32
    {
        let no_comma_from = self.no_comma_from.max(first).min(end) - first;
        let cells = &mut self.cells[(self.store + first) as usize..(self.store + end) as usize];
        tag_commas(cells, no_comma_from as usize) as u32
    }

    /// Replaces the cell at place `i` of neutral. Neither the old nor the new one may be a call mark.
    #[inline]
    pub fn write_neutral(&mut self, i: u32, cell: Cell)
    {
        self.cells[(self.store + i) as usize] = cell;
        self.no_comma_from = if holds_comma(&cell) {
            self.no_comma_from.max(i + 1)
        } else {
            self.no_comma_from
        };
    }

    /// Takes the tags off the cells of neutral from place `a` up to `b`.
    #[inline(always)]
    pub fn clear_neutral_tags(&mut self, a: u32, b: u32)
    {
        clear_tags(&mut self.cells[(self.store + a) as usize..(self.store + b) as usize]);
    }

    /// Empties neutral, its open calls included.
    pub fn clear_neutral(&mut self)
    {
        self.neutral = 0;
        self.top_frame = 0;
        self.no_comma_from = 0;
    }

    /// Removes all but the first `n` cells of neutral. Looks at each call mark that it removes.
    #[inline]
    pub fn cut_neutral(&mut self, n: u32)
    {
        let top_frame = self.frame_before(n);
        self.top_frame = top_frame;
        self.neutral = n;
        self.no_comma_from = n;
    }

    /// Removes the cells of neutral from place `a` up to `b`. No call mark may stand behind them.
    pub fn drop_neutral(&mut self, a: u32, b: u32)
    {
        let start = (self.store + b) as usize;
        let end = (self.store + self.neutral) as usize;
        let to = (self.store + a) as usize;
        let top_frame = self.frame_before(a);
        let rest = self.neutral - (b - a);
        copy_cells(self.cells, start, end, to);
        self.neutral = rest;
        self.top_frame = top_frame;
        self.no_comma_from = rest;
    }
}
