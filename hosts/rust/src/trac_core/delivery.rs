// Generated from crates/trac_core/src/delivery.rt by hosts/rust/generate, and never edited.
//! What follows a function's answer: the count of what the call needed, and where its value goes.

use crate::trac_core::outcome::StepOutcome;
use crate::trac_forms::Work;
use crate::trac_functions::arguments::CallResult;
use crate::trac_language::{Fate, Mode};
use crate::trac_space::{Cell, Part};

/// Removes the call that is this part of the neutral string, its mark and its arguments, and finishes what
/// its function began: a value that doesn't stand where it belongs is moved there.
/// `before` cells were used when the call was performed.
#[inline(always)]
pub(crate) fn finish_call(
    work: &mut Work,
    call: Part,
    before: u32,
    call_result: CallResult,
) -> StepOutcome
{
    let (fate, need) = match call_result {
        CallResult::Full => (Some(Fate::Workspace), 0),
        CallResult::Over(fate) => (Some(fate), work.used()),
        CallResult::InFront(cells) | CallResult::Null(cells) => {
            work.cut_neutral(call.from);
            (None, before + cells)
        }
        CallResult::Unscanned(cells) => {
            work.cut_neutral(call.from);
            work.active_to_neutral(cells);
            (None, before + cells)
        }
        CallResult::AtEnd => {
            let need = before + (work.neutral_len() - call.to);
            deliver(work, call.from, call.to);
            (None, need)
        }
    };
    StepOutcome { fate, need }
}

/// Removes the call whose mark stands at the place. Its value, which stands from another place on, goes
/// before the active string or stays.
#[inline]
fn deliver(work: &mut Work, place: u32, from: u32)
{
    let scanned = is_scanned_again(work, place);
    move_value(work, place, from, scanned);
}

/// Removes the call whose mark stands at the place. Its value, which stands from another place on, goes before
/// the active string if it is to be scanned again, and else stays.
#[inline(always)]
pub(crate) fn move_value(work: &mut Work, place: u32, from: u32, scanned: bool)
{
    if scanned {
        work.neutral_to_active(from);
        work.cut_neutral(place);
    } else {
        work.drop_neutral(place, from);
    }
}

/// Whether the value of the innermost call, whose mark stands at the place, goes before the active
/// string.
#[inline]
pub(crate) fn is_active_call(work: &Work, place: u32) -> bool
{
    matches!(work.call_mode(place), Mode::Active)
}

/// Whether the value of the call whose mark stands at the place goes before the active string.
#[inline]
fn is_scanned_again(work: &Work, place: u32) -> bool
{
    match work.neutral_at(place) {
        Some(mark) => is_active(mark),
        None => true,
    }
}

/// Whether the value of a call with this mark is scanned again.
fn is_active(mark: Cell) -> bool
{
    !matches!(mark, Cell::Call(Mode::Neutral, _))
}
