// Generated from crates/trac_space/src/space/calls.rt by hosts/rust/generate, and never edited.
//! The chain of open calls: each call mark knows how far the one before it is.

use super::Space;
use crate::trac_space::cell::{Cell, frame_link, is_comma, mode};
use crate::trac_space::part::Part;
use crate::trac_language::Mode;

impl<'a> Space<'a> {
    /// The place of the last call mark in neutral, that of the innermost open call. None if no call is
    /// open.
    #[inline]
    pub fn last_call(&self) -> Option<u32>
    {
        self.top_frame.checked_sub(1)
    }

    /// The place of the last call mark in neutral before the one at `place`, that of the call around. None if
    /// no call is open around it.
    #[inline]
    pub fn call_before(&self, place: u32) -> Option<u32>
    {
        let start = self.store as usize;
        let stop = (self.store + self.neutral) as usize;
        up_to_mark(&self.cells[start..stop], place).checked_sub(1)
    }

    /// The mode of the innermost open call, whose mark stands at `place`.
    #[inline]
    pub fn call_mode(&self, place: u32) -> Mode
    {
        mode(self.cells[(self.store + place) as usize])
    }

    // The place behind the last call mark among the first `end` cells of neutral, 0 if there is none.
    #[inline]
    pub(super) fn frame_before(&self, end: u32) -> u32
    {
        let start = self.store as usize;
        let stop = (self.store + self.neutral) as usize;
        top_frame_in(&self.cells[start..stop], self.top_frame, end)
    }

    /// How many arguments stand in neutral from the call mark at `call` up to `end`: one more than
    /// the comma marks there.
    pub fn arguments(&self, call: u32, end: u32) -> u32
    {
        let from = (self.store + call + 1) as usize;
        let to = (self.store + end) as usize;
        count_commas(&self.cells[from..to]) + 1
    }

    /// Where argument `k`, from 0, of the call from `call` up to `end` begins and ends. None if the call
    /// has no such argument.
    pub fn argument(&self, call: u32, end: u32, k: u32) -> Option<(u32, u32)>
    {
        let start = self.store as usize;
        let stop = (self.store + self.neutral) as usize;
        match argument_in(&self.cells[start..stop], call, end, k) {
            Some(part) => Some((part.from, part.to)),
            None => None,
        }
    }
}

// The place behind the last call mark among the first `end` cells, 0 if there is none. `behind` is that
// place among all the cells. Mostly only the last call mark is left out, which takes no loop.
#[inline]
fn top_frame_in(neutral: &[Cell], behind: u32, end: u32) -> u32
{
    if behind == end + 1 {
        return up_to_mark(neutral, end);
    }
    walk_back(neutral, behind, end)
}

// The place behind the last call mark among the first `end` cells, 0 if there is none. Goes back from
// call mark to call mark, from the place `behind`.
#[inline]
fn walk_back(neutral: &[Cell], behind: u32, end: u32) -> u32
{
    let mut behind = behind;
    while behind > end {
        let place = behind - 1;
        behind = up_to(place, frame_link(neutral[place as usize]));
    }
    behind
}

// The place behind the call mark before the one at `place`, 0 if there is none.
#[inline]
fn up_to_mark(neutral: &[Cell], place: u32) -> u32
{
    up_to(place, frame_link(neutral[place as usize]))
}

// The place behind the call mark before the one at `place`, which has this number; 0 if there is none.
#[inline(always)]
fn up_to(place: u32, number: u32) -> u32
{
    if number == 0 { 0 } else { place - (number - 1) }
}

// How many of the cells are comma marks.
fn count_commas(cells: &[Cell]) -> u32
{
    cells.iter().filter(|cell| is_comma(*cell)).count() as u32
}

// The cells of argument `k`, from 0, of the call from `call` up to `end`. None if the call has no such
// argument.
fn argument_in(neutral: &[Cell], call: u32, end: u32, k: u32) -> Option<Part>
{
    let mut number = 0;
    let mut from = call + 1;
    for to in call + 1..end {
        if is_comma(&neutral[to as usize]) {
            if number == k {
                return Some(Part { from, to });
            }
            number += 1;
            from = to + 1;
        }
    }
    if number == k {
        Some(Part { from, to: end })
    } else {
        None
    }
}
