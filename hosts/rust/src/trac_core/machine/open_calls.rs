// Generated from crates/trac_core/src/machine/open_calls.rt by hosts/rust/generate, and never edited.
//! The calls that are open in a machine, by their marks.

use super::Machine;
use crate::trac_forms::{Cell, Work};
use crate::trac_language::Mode;

/// The mark of an open call.
#[derive(Clone, Copy, Debug, PartialEq, Eq)]
pub struct CallMark {
    /// The mode of the call.
    pub mode: Mode,
    /// The place of the mark in the neutral string, in cells from 0.
    pub place: usize,
}

impl<'a> Machine<'a> {
    /// The place of the mark of the call around the one whose mark stands at `mark`, and of the innermost
    /// call where `mark` is `None`: in the neutral string, in cells from 0. None if no call is open around
    /// it, and if no mark of a call stands at `mark`. Looks at one mark, however many calls are open and
    /// however long they are. This processor's own choice.
    pub fn mark_around(&self, mark: Option<u32>) -> Option<u32>
    {
        mark_around(&self.work, mark)
    }

    /// The mark of an open call. The innermost call has the number 0, the one around it the number 1, and so
    /// on. None if no open call has the number. Looks at the marks of the calls up to this one and at no text.
    /// This processor's own choice.
    pub fn call_mark(&self, number: u32) -> Option<CallMark>
    {
        mark_of(&self.work, number)
    }
}

/// The place of the mark of the call around the one with this mark, and of the innermost call without a
/// mark.
fn mark_around(work: &Work, mark: Option<u32>) -> Option<u32>
{
    let Some(place) = mark else {
        return work.last_call();
    };
    if is_mark_at(work, place) {
        work.call_before(place)
    } else {
        None
    }
}

/// Whether the mark of a call stands at a place of the neutral string.
fn is_mark_at(work: &Work, place: u32) -> bool
{
    let Some(cell) = work.neutral_at(place) else {
        return false;
    };
    is_mark(cell)
}

/// Whether a cell is the mark of a call.
fn is_mark(cell: Cell) -> bool
{
    matches!(cell, Cell::Call(_, _))
}

/// The mark of the open call with this number, the innermost being 0.
fn mark_of(work: &Work, number: u32) -> Option<CallMark>
{
    let Some(mut place) = work.last_call() else {
        return None;
    };
    for _inner in 0..number {
        let Some(around) = work.call_before(place) else {
            return None;
        };
        place = around;
    }
    Some(CallMark {
        mode: mode_at(work, place),
        place: place as usize,
    })
}

/// The mode of the call whose mark stands at a place.
fn mode_at(work: &Work, place: u32) -> Mode
{
    match work.neutral_at(place) {
        Some(Cell::Call(mode, _)) => mode,
        _ => Mode::Active,
    }
}
