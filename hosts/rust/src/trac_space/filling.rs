// Generated from crates/trac_space/src/filling.rt by hosts/rust/generate, and never edited.
//! Copies cells of the store to the front of active, and fills their gaps with what stands between comma
//! marks. Meanwhile the places of the comma marks are the tags of the first cells that they part.

use crate::trac_space::cell::{Cell, is_character, is_comma};
use crate::trac_space::character_runs::characters_before;
use crate::trac_space::copies::{BLOCK, HIGHER, copy_at_once, copy_short};
use crate::trac_space::tags::{clear_tags, present_tag, tagged, untagged_cell};

// The cells whose parts fill the gaps: where they begin in the block, how many they are, and how many
// comma marks are among them. The places of the comma marks are the tags of the first of these cells.
#[derive(Clone, Copy, Debug)]
pub(crate) struct ArgumentTable {
    pub(crate) start: usize,
    pub(crate) len: usize,
    pub(crate) commas: usize,
}

// Cells of a block: where they begin, and how many they are.
#[derive(Clone, Copy, Debug)]
struct Span {
    start: usize,
    len: usize,
}

/// Lays the places of the comma marks over the first cells, in order, and gives how many they are. None
/// stands from place `no_comma_from` on.
#[inline(always)]
pub(crate) fn tag_commas(cells: &mut [Cell], no_comma_from: usize) -> usize
{
    let mut count = 0;
    for at in 0..no_comma_from {
        if is_comma(&cells[at]) {
            cells[count] = tagged(cells[count], at as u32);
            count += 1;
        }
    }
    count
}

// Copies the cells from place `from` up to `stop` to a higher place, so that the copy ends before place
// `to`: a character as it is, and the part of a gap's ordinal in place of the gap. The last cells are copied
// first. Gives where the copy begins. None if it would begin before `low`; then the cells from `low` up to
// `to` are unspecified.
#[inline(always)]
pub(crate) fn fill_cells(
    cells: &mut [Cell],
    from: usize,
    stop: usize,
    low: usize,
    to: usize,
    given: ArgumentTable,
) -> Option<usize>
{
    let mut at = stop;
    let mut to = to;
    while at >= BLOCK && distance(low, to) >= BLOCK {
        copy_at_once::<BLOCK, HIGHER>(cells, at - BLOCK, to - BLOCK);
        let run = characters_before(cells, at);
        if at - from <= run {
            return Some(to - (at - from));
        }
        at -= run;
        to -= run;
        if run == BLOCK {
            continue;
        }
        at -= 1;
        let part = part_numbered(cells, ordinal_in(cells[at]), given);
        if part.len > to - low {
            return None;
        }
        to -= part.len;
        put_untagged(cells, part.start, to, part.len, given);
    }
    fill_each(cells, from, at, low, to, given)
}

// Does what `fill_cells` does, cell by cell.
#[inline(never)]
fn fill_each(
    cells: &mut [Cell],
    from: usize,
    stop: usize,
    low: usize,
    to: usize,
    given: ArgumentTable,
) -> Option<usize>
{
    let mut at = stop;
    let mut to = to;
    while from < at {
        at -= 1;
        let filling = filling_of(cells, at, given);
        if filling.len > to - low {
            return None;
        }
        to -= filling.len;
        put_untagged(cells, filling.start, to, filling.len, given);
    }
    Some(to)
}

// Copies `n` cells to a higher place apart, without their tags.
#[inline(always)]
fn put_untagged(cells: &mut [Cell], start: usize, to: usize, n: usize, given: ArgumentTable)
{
    let tagged = given.start + given.commas;
    if start >= tagged {
        put_as_they_are(cells, start, to, n);
        return;
    }
    if n == 1 {
        cells[to] = untagged_cell(cells[start]);
        return;
    }
    copy_short::<HIGHER>(cells, start, n, to);
    clear_tags(&mut cells[to..to + n.min(tagged - start)]);
}

// Copies `n` cells to a higher place apart. One cell, the commonest case, needs no call.
#[inline(always)]
fn put_as_they_are(cells: &mut [Cell], start: usize, to: usize, n: usize)
{
    if n == 1 {
        copy_at_once::<1, HIGHER>(cells, start, to);
    } else {
        copy_short::<HIGHER>(cells, start, n, to);
    }
}

// How far `to` is behind `start`, as a number of 32 bits, which the compiler compares as it is.
#[inline(always)]
fn distance(start: usize, to: usize) -> usize
{
    (to - start) as u32 as usize
}

// The cells that stand for the one at place `at`: a character stands for itself, the part of its ordinal
// for a gap.
#[inline]
fn filling_of(cells: &[Cell], at: usize, given: ArgumentTable) -> Span
{
    if is_character(&cells[at]) {
        return Span { start: at, len: 1 };
    }
    part_numbered(cells, ordinal_in(cells[at]), given)
}

// The cells of the part of this number, from 1: none if there is no such part.
#[inline(always)]
fn part_numbered(cells: &[Cell], number: u32, given: ArgumentTable) -> Span
{
    let place = number.wrapping_sub(1) as usize;
    if place > given.commas {
        return Span {
            start: given.start,
            len: 0,
        };
    }
    let from = part_begin(cells, place, given);
    let end = part_end(cells, place, given);
    Span {
        start: given.start + from,
        len: end - from,
    }
}

// Where the part behind `place` comma marks begins, counted from the first of the given cells.
#[inline(always)]
fn part_begin(cells: &[Cell], place: usize, given: ArgumentTable) -> usize
{
    if place == 0 {
        return 0;
    }
    present_tag(cells[given.start + place - 1]) as usize + 1
}

// Where the part behind `place` comma marks ends, counted from the first of the given cells.
#[inline(always)]
fn part_end(cells: &[Cell], place: usize, given: ArgumentTable) -> usize
{
    if place == given.commas {
        return given.len;
    }
    present_tag(cells[given.start + place]) as usize
}

// The ordinal of a gap, 0 for any other cell.
#[inline]
fn ordinal_in(cell: Cell) -> u32
{
    match cell {
        Cell::Gap(ordinal) => ordinal,
        _ => 0,
    }
}
