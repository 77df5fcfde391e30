// Generated from crates/trac_space/src/space.rt by hosts/rust/generate, and never edited.
//! The lists of cells, and where each stands in the block.

use crate::trac_space::cell::Cell;

mod active_string;
mod calls;
mod index_area;
mod moves;
mod neutral_string;
mod store;

/// Three lists of cells in one lent block: the store at the left end, the neutral string behind it, and
/// the active string at the right end. The free cells lie between the two strings.
///
/// Places and lengths count cells. A move needs no free cell and can't fail. A call that adds cells
/// answers whether they fit; if they don't, nothing has changed.
///
/// A fourth list, the index area, stands behind the active string. Its cells count as free. A call that
/// adds cells keeps the index area if they fit beside it, and drops it if they fit only without it; the
/// contracts say so by `reserved`. Apart from these, only the calls named after the index area change it.
/// No answer, and nothing in the three lists, depends on it.
pub struct Space<'a> {
    cells: &'a mut [Cell],
    store: u32,
    neutral: u32,
    active: u32,
    // Where active ends and the index area begins.
    end: u32,
    // The place in neutral behind its last call mark, 0 if it has none.
    top_frame: u32,
    // From this place on no comma mark stands in neutral, with or without a tag. It may lie behind the end.
    no_comma_from: u32,
}

impl<'a> Space<'a> {
    /// Makes three empty lists in `block`, whose cells may hold anything.
    ///
    /// The bound of 16,777,216 cells is this processor's own choice.
    pub fn over(block: &'a mut [Cell]) -> Space<'a>
    {
        let end = block.len() as u32;
        Space {
            cells: block,
            store: 0,
            neutral: 0,
            active: 0,
            end,
            top_frame: 0,
            no_comma_from: 0,
        }
    }

    /// How many cells the block has.
    #[inline]
    pub fn room(&self) -> u32
    {
        self.cells.len() as u32
    }

    /// How many cells the three lists have together.
    #[inline]
    pub fn used(&self) -> u32
    {
        self.store + self.neutral + self.active
    }

    /// How many cells are free; those of the index area count as free.
    #[inline]
    pub fn free(&self) -> u32
    {
        self.room() - self.used()
    }

    /// How many cells the store has.
    pub fn store_len(&self) -> u32
    {
        self.store
    }

    /// How many cells neutral has.
    #[inline]
    pub fn neutral_len(&self) -> u32
    {
        self.neutral
    }

    /// A place of neutral from which on no comma mark stands. It may lie behind the end of neutral.
    #[inline]
    pub fn no_comma_from(&self) -> u32
    {
        self.no_comma_from
    }

    /// How many cells active has.
    #[inline]
    pub fn active_len(&self) -> u32
    {
        self.active
    }

    /// The cell at place `i` of the store. None if it has no such place.
    pub fn store_at(&self, i: u32) -> Option<Cell>
    {
        if i < self.store {
            Some(self.cells[i as usize])
        } else {
            None
        }
    }

    /// The cell at place `i` of neutral. None if it has no such place.
    #[inline]
    pub fn neutral_at(&self, i: u32) -> Option<Cell>
    {
        if i < self.neutral {
            Some(self.cells[(self.store + i) as usize])
        } else {
            None
        }
    }

    /// The cell at place `i` of active. None if it has no such place.
    #[inline]
    pub fn active_at(&self, i: u32) -> Option<Cell>
    {
        if i < self.active {
            Some(self.cells[(self.end - (self.active - i)) as usize])
        } else {
            None
        }
    }

    /// The cells of the store from place `a` up to `b`, not copied.
    pub fn store_part(&self, a: u32, b: u32) -> &[Cell]
    {
        &self.cells[a as usize..b as usize]
    }

    /// The cells of neutral from place `a` up to `b`, not copied.
    pub fn neutral_part(&self, a: u32, b: u32) -> &[Cell]
    {
        &self.cells[(self.store + a) as usize..(self.store + b) as usize]
    }

    /// The cells of active from place `a` up to `b`, not copied.
    pub fn active_part(&self, a: u32, b: u32) -> &[Cell]
    {
        let start = self.end - self.active;
        &self.cells[(start + a) as usize..(start + b) as usize]
    }

    /// Empties neutral, its open calls included, and active.
    #[inline]
    pub fn clear_strings(&mut self)
    {
        self.clear_neutral();
        self.clear_active();
    }
}
