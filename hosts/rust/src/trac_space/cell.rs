// Generated from crates/trac_space/src/cell.rt by hosts/rust/generate, and never edited.
//! A cell: what one place of the block holds.

use crate::trac_language::Mode;

// A match arm that is never reached reads from one of these arrays without elements, so the compiler
// leaves out the test for that arm.
const UNREACHED_BYTE: [u8; 0] = [];

pub(crate) const UNREACHED_NUMBER: [u32; 0] = [];

const UNREACHED_MODE: [Mode; 0] = [];

/// What one place of a block holds. Room is counted in cells: a character, a mark, a gap and a head number
/// take one cell each, which is this processor's own choice.
#[derive(Clone, Copy, Debug)]
pub enum Cell {
    /// A character, which is any byte.
    Byte(u8),
    /// The mark of an open call. Its number leads to the call mark before it: `Space` sets it, and
    /// contracts compare cells without it.
    Call(Mode, u32),
    /// The mark between two arguments of an open call.
    Comma,
    /// A gap in the body of a form, with its ordinal (Mooers 1966).
    Gap(u32),
    /// A number at the head of a form.
    Head(u32),
}

/// The character of a cell, or 0 for a cell that isn't a character.
pub fn character_of(cell: &Cell) -> u8
{
    match cell {
        Cell::Byte(byte) => *byte,
        _ => 0,
    }
}

/// The character of a cell, which must hold one.
#[inline]
pub fn byte_in(cell: &Cell) -> u8
{
    match cell {
        Cell::Byte(byte) => *byte,
        _ => UNREACHED_BYTE[0],
    }
}

// Replaces the character in a cell that holds one.
#[inline(always)]
pub(crate) fn set_byte(cell: &mut Cell, byte: u8)
{
    match cell {
        Cell::Byte(place) => *place = byte,
        _ => *cell = Cell::Byte(UNREACHED_BYTE[0]),
    }
}

/// Whether the cell is a character.
#[inline]
pub fn is_character(cell: &Cell) -> bool
{
    matches!(cell, Cell::Byte(_))
}

/// Whether the eight cells from place `at` on are all characters.
#[inline(always)]
pub fn are_characters(cells: &[Cell], at: usize) -> bool
{
    kinds(cells, at) == 0
}

/// Whether the four cells from place `at` on are all characters.
#[inline(always)]
pub(crate) fn are_four(cells: &[Cell], at: usize) -> bool
{
    kinds_of_two(cells, at) + kinds_of_two(cells, at + 2) == 0
}

/// Whether the two cells from place `at` on are both characters.
#[inline(always)]
pub(crate) fn are_two(cells: &[Cell], at: usize) -> bool
{
    kinds_of_two(cells, at) == 0
}

// The sum of the kind numbers of the two cells from place `at` on; 0 means that both are characters.
#[inline(always)]
fn kinds_of_two(cells: &[Cell], at: usize) -> u8
{
    kind(&cells[at]) + kind(&cells[at + 1])
}

// The sum of the kind numbers of the eight cells from place `at` on; 0 means that all are characters.
#[inline(always)]
fn kinds(cells: &[Cell], at: usize) -> u8
{
    kind(&cells[at])
        + kind(&cells[at + 1])
        + kind(&cells[at + 2])
        + kind(&cells[at + 3])
        + kind(&cells[at + 4])
        + kind(&cells[at + 5])
        + kind(&cells[at + 6])
        + kind(&cells[at + 7])
}

// The number of a cell's kind, 0 for a character. It is the number that the compiler keeps for the
// variant, so reading it takes no branch.
#[inline(always)]
fn kind(cell: &Cell) -> u8
{
    match cell {
        Cell::Byte(_) => 0,
        Cell::Call(_, _) => 1,
        Cell::Comma => 2,
        Cell::Gap(_) => 3,
        Cell::Head(_) => 4,
    }
}

// Whether the cell is a comma mark.
pub(crate) fn is_comma(cell: &Cell) -> bool
{
    matches!(cell, Cell::Comma)
}

// Whether the cell is a call mark.
pub(crate) fn is_call(cell: &Cell) -> bool
{
    matches!(cell, Cell::Call(_, _))
}

// The cell as it stands at `place`: a call mark gets as its number the distance to the call mark before
// it, or 0 if there is none. `behind` is the place behind that call mark, or 0.
pub(crate) fn linked(cell: Cell, place: u32, behind: u32) -> Cell
{
    match cell {
        Cell::Call(mode, _) if behind == 0 => Cell::Call(mode, 0),
        Cell::Call(mode, _) => Cell::Call(mode, place + 1 - behind),
        other => other,
    }
}

// The number in a call mark.
pub(crate) fn frame_link(cell: Cell) -> u32
{
    match cell {
        Cell::Call(_, number) => number,
        _ => UNREACHED_NUMBER[0],
    }
}

// The mode in a call mark.
#[inline(always)]
pub(crate) fn mode(cell: Cell) -> Mode
{
    match cell {
        Cell::Call(mode, _) => mode,
        _ => UNREACHED_MODE[0],
    }
}
