// Generated from crates/trac_forms/src/work.rt by hosts/rust/generate, and never edited.
//! The strings of a `Work`.

use crate::trac_space::{Cell, Mode, Neutral, Space};
use crate::trac_store::{FIRST_FORM, Located};

// A part of neutral with at least this many characters is copied to active by a call.
const LONG_LOAD: u32 = 8;

/// Forms, a neutral string and an active string in one lent block.
///
/// Places and lengths count cells. A call that adds cells answers whether they fit; if they don't, nothing
/// has changed. Active holds characters; neutral holds characters, call marks and comma marks.
pub struct Work<'a> {
    pub(crate) space: Space<'a>,
    pub(crate) count: u32,
    // The form used last.
    pub(crate) last: Located,
    // How many forms and slots searches looked at, beyond a few each, since the index was last made.
    pub(crate) search_cost: u32,
}

impl<'a> Work<'a> {
    /// Makes two empty strings and no forms in `block`, whose cells may hold anything.
    ///
    /// The bound of 16,777,216 cells is this processor's own choice.
    pub fn over(block: &'a mut [Cell]) -> Work<'a>
    {
        Work {
            space: Space::over(block),
            count: 0,
            last: FIRST_FORM,
            search_cost: 0,
        }
    }

    /// How many cells the block has.
    #[inline]
    pub fn room(&self) -> u32
    {
        self.space.room()
    }

    /// How many cells the forms and the strings have together.
    #[inline]
    pub fn used(&self) -> u32
    {
        self.space.used()
    }

    /// How many cells are free.
    #[inline]
    pub fn free(&self) -> u32
    {
        self.space.free()
    }

    /// How many cells neutral has.
    #[inline]
    pub fn neutral_len(&self) -> u32
    {
        self.space.neutral_len()
    }

    /// A place of neutral from which on no comma mark stands. It may lie behind the end of neutral.
    #[inline]
    pub fn no_comma_from(&self) -> u32
    {
        self.space.no_comma_from()
    }

    /// How many cells active has.
    #[inline]
    pub fn active_len(&self) -> u32
    {
        self.space.active_len()
    }

    /// The cell at place `i` of neutral. None if it has no such place.
    #[inline]
    pub fn neutral_at(&self, i: u32) -> Option<Cell>
    {
        self.space.neutral_at(i)
    }

    /// The cell at place `i` of active. None if it has no such place.
    #[inline]
    pub fn active_at(&self, i: u32) -> Option<Cell>
    {
        self.space.active_at(i)
    }

    /// The cells of neutral from place `a` up to `b`, not copied.
    pub fn neutral_part(&self, a: u32, b: u32) -> &[Cell]
    {
        self.space.neutral_part(a, b)
    }

    /// The cells of active from place `a` up to `b`, not copied.
    pub fn active_part(&self, a: u32, b: u32) -> &[Cell]
    {
        self.space.active_part(a, b)
    }

    /// Appends a character, a call mark or a comma mark to neutral. False, with nothing changed, if no cell
    /// is free.
    #[inline]
    pub fn push_neutral(&mut self, cell: Cell) -> bool
    {
        self.space.push_neutral(cell)
    }

    /// Appends the bytes of `text` to neutral. False, with nothing changed, if they don't fit.
    pub fn push_bytes(&mut self, text: &[u8]) -> bool
    {
        self.space.push_bytes(text)
    }

    /// Copies the cells of neutral from place `a` up to `b` to its end. No call mark may be among them. False,
    /// with nothing changed, if they don't fit.
    pub fn copy_neutral(&mut self, a: u32, b: u32) -> bool
    {
        self.space.copy_neutral(a, b)
    }

    /// Makes the bytes of `text` the active string, which must be empty. False, with nothing changed, if
    /// they don't fit.
    pub fn load_active(&mut self, text: &[u8]) -> bool
    {
        self.space.load_active(text)
    }

    /// Makes `neutral`, which are characters, call marks and comma marks, the neutral string, and the bytes of
    /// `active` the active one. They must fit beside the forms.
    #[inline(always)]
    pub fn set_strings(&mut self, neutral: &[Cell], active: &[u8])
    {
        self.space.clear_strings();
        self.space.reserve((neutral.len() + active.len()) as u32);
        self.space.load_bytes(active);
        self.space.put_cells(neutral);
    }

    /// Removes the first cell of active and gives it. None if active is empty.
    #[inline]
    pub fn take_active(&mut self) -> Option<Cell>
    {
        self.space.take_active()
    }

    /// Removes the first `n` cells of active.
    #[inline]
    pub fn drop_active(&mut self, n: u32)
    {
        self.space.drop_active(n);
    }

    /// Empties neutral, its open calls included.
    pub fn clear_neutral(&mut self)
    {
        self.space.clear_neutral();
    }

    /// Empties active.
    pub fn clear_active(&mut self)
    {
        self.space.clear_active();
    }

    /// Removes all but the first `n` cells of neutral. Looks at each call mark that it removes.
    pub fn cut_neutral(&mut self, n: u32)
    {
        self.space.cut_neutral(n);
    }

    /// Removes the cells of neutral from place `a` up to `b`. No call mark may stand behind them.
    pub fn drop_neutral(&mut self, a: u32, b: u32)
    {
        self.space.drop_neutral(a, b);
    }

    /// Moves the characters of neutral from place `from` on to the front of active, in order. Needs no free
    /// cell.
    #[inline(always)]
    pub fn neutral_to_active(&mut self, from: u32)
    {
        self.space.neutral_to_active(from);
    }

    /// Copies the characters of neutral from place `a` up to `b` to the front of active. False, with nothing
    /// changed, if they don't fit.
    #[inline(always)]
    pub fn load_part(&mut self, a: u32, b: u32) -> bool
    {
        let size = b - a;
        if size < LONG_LOAD && size <= self.space.free_beside_index() {
            self.space.load_from_neutral(a, b);
            return true;
        }
        self.load_other_part(a, b)
    }

    // Does what `load_part` does for many characters, or for some that don't fit beside the index area.
    #[inline(never)]
    fn load_other_part(&mut self, a: u32, b: u32) -> bool
    {
        if self.space.free() < b - a {
            return false;
        }
        self.space.reserve(b - a);
        self.space.load_from_neutral(a, b);
        true
    }

    /// Puts the bytes of `text` in front of active. They must fit.
    #[inline]
    pub fn load_bytes(&mut self, text: &[u8])
    {
        self.space.reserve(text.len() as u32);
        self.space.load_bytes(text);
    }

    /// Moves the first `n` characters of active to the end of neutral, in order. Needs no free
    /// cell.
    pub fn active_to_neutral(&mut self, n: u32)
    {
        self.space.active_to_neutral(n);
    }

    /// Moves characters from the front of active to the end of neutral, at most `most`. `table` has a
    /// number for each byte: 0 keeps the character, 1 makes it a comma mark, a higher number ends the run
    /// before it. Gives how many characters the run has. Needs no free cell.
    #[inline]
    pub fn run_to_neutral(&mut self, most: u32, table: &[u8]) -> u32
    {
        self.space.run_to_neutral(most, table)
    }

    /// Removes the first `n` characters of active, one or more, and appends a character, a call mark or a
    /// comma mark to neutral for them. Needs no free cell.
    #[inline]
    pub fn active_to_cell(&mut self, n: u32, cell: Cell)
    {
        self.space.active_to_cell(n, cell);
    }

    /// The place in neutral of the last call mark, that of the innermost open call. None if no call is
    /// open.
    #[inline]
    pub fn last_call(&self) -> Option<u32>
    {
        self.space.last_call()
    }

    /// The place in neutral of the last call mark before the one at `place`, that of the call around. None if
    /// no call is open around it.
    #[inline]
    pub fn call_before(&self, place: u32) -> Option<u32>
    {
        self.space.call_before(place)
    }

    /// The mode of the innermost open call, whose mark stands at `place`.
    #[inline]
    pub fn call_mode(&self, place: u32) -> Mode
    {
        self.space.call_mode(place)
    }

    /// How many arguments stand in neutral from the call mark at `call` up to `end`: one more than
    /// the comma marks there.
    pub fn arguments(&self, call: u32, end: u32) -> u32
    {
        self.space.arguments(call, end)
    }

    /// Where argument `k`, from 0, of the call from `call` up to `end` begins and ends. None if the call
    /// has no such argument.
    pub fn argument(&self, call: u32, end: u32, k: u32) -> Option<(u32, u32)>
    {
        self.space.argument(call, end, k)
    }
}

impl<'a> Neutral for Work<'a> {
    fn push_before(&mut self, stop: u8, text: &[u8]) -> usize {
        self.space.push_before(stop, text)
    }
}
