// Generated from crates/trac_core/src/machine/printing.rt by hosts/rust/generate, and never edited.
//! What the next step of a machine prints: how many bytes, and the step without them.

use super::Machine;
use super::changing::Refused;
use super::closing::{closed_call, named_at};
use crate::trac_core::delivery::finish_call;
use crate::trac_core::display::display_len;
use crate::trac_core::outcome::StepOutcome;
use crate::trac_forms::Work;
use crate::trac_functions::arguments::CallResult;
use crate::trac_language::Function;
use crate::trac_space::Part;

impl<'a> Machine<'a> {
    /// How many bytes the next step prints, by `ps` or `pf` and whatever the input, where they are more than
    /// `free`. None if they aren't, where the run is over, and where the allowance is used up. The caller
    /// says which function that step performs, as `next_function` does. A text isn't measured where there
    /// is room for the whole neutral string. This processor's own choice.
    pub fn prints_past(&mut self, function: Option<Function>, free: u64) -> Option<u32>
    {
        if prints(function) {
            printed_past(&mut self.work, function, free)
        } else {
            None
        }
    }
}

impl<'a> Machine<'a> {
    /// Makes the next step, which prints, and drops what it prints: a host that took it in pieces goes on so.
    /// `Refused`, with nothing changed, if that step prints nothing, the run is over, or the allowance is
    /// used up. This processor's own choice.
    pub fn skip_print(&mut self) -> Result<(), Refused>
    {
        let function = self.next_function();
        if !prints(function) {
            return Err(Refused);
        }
        let Some(outcome) = skip_printing(&mut self.work) else {
            return Err(Refused);
        };
        self.count(outcome);
        Ok(())
    }
}

/// Makes a step that performs a call of a function that prints, and drops what it prints. None, with nothing changed,
/// where it prints nothing.
fn skip_printing(work: &mut Work) -> Option<StepOutcome>
{
    if printed_len(work) == 0 {
        return None;
    }
    let Some(place) = closed_call(work) else {
        return None;
    };
    Some(end_printing(work, place))
}

/// Deletes the right parenthesis that ends the innermost call, which prints, and has the call leave with its null
/// value.
fn end_printing(work: &mut Work, place: u32) -> StepOutcome
{
    work.drop_active(1);
    let before = work.used();
    let call = Part {
        from: place,
        to: work.neutral_len(),
    };
    finish_call(work, call, before, CallResult::Null(0))
}

/// Whether a call of the function prints.
#[inline]
fn prints(function: Option<Function>) -> bool
{
    matches!(function, Some(Function::PrintString | Function::PrintForm))
}

/// How many bytes a step over these contents prints, which performs this function, where they are
/// more than `free`.
fn printed_past(work: &mut Work, function: Option<Function>, free: u64) -> Option<u32>
{
    match closed_call(work) {
        None => None,
        Some(place) => call_past(work, place, function, free),
    }
}

/// How many bytes the innermost call prints, whose mark stands at the place and which names this function, where
/// they are more than `free`.
fn call_past(work: &mut Work, place: u32, function: Option<Function>, free: u64) -> Option<u32>
{
    if u64::from(work.neutral_len()) <= free && !displays(function) {
        return None;
    }
    let printed = call_len(work, place);
    if u64::from(printed) <= free {
        None
    } else {
        Some(printed)
    }
}

/// Whether a call of the function displays a form.
fn displays(function: Option<Function>) -> bool
{
    match function {
        None => false,
        Some(function) => match function {
            Function::PrintForm => true,
            _ => false,
        },
    }
}

/// How many bytes a step over these contents prints.
fn printed_len(work: &mut Work) -> u32
{
    match closed_call(work) {
        None => 0,
        Some(place) => call_len(work, place),
    }
}

/// How many bytes the innermost call prints, whose mark stands at the place.
fn call_len(work: &mut Work, place: u32) -> u32
{
    let (function, mut arguments) = named_at(work, place);
    let part = arguments.next(work);
    match function {
        None => 0,
        Some(function) => match function {
            Function::PrintString => part.to - part.from,
            Function::PrintForm => named_len(work, part),
            _ => 0,
        },
    }
}

/// How many bytes the display of the form has whose name is a part of the neutral string, 0 where
/// no form has that name.
fn named_len(work: &mut Work, name: Part) -> u32
{
    match work.find(name.from, name.to) {
        Some(form) => display_len(&work.stored(form)),
        None => 0,
    }
}
