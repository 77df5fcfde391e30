// Generated from crates/trac_core/src/machine/arguments.rt by hosts/rust/generate, and never edited.
//! The arguments of the call that the next step of a machine performs.

use super::Machine;
use super::closing::{arguments_at, closed_call};
use crate::trac_forms::{Cell, Work};
use crate::trac_functions::arguments::{Arguments, text};

impl<'a> Machine<'a> {
    /// How many arguments the call has that the next step performs, its name counted and null ones too. 0 if that
    /// step performs no call: the active string begins with no right parenthesis, or no call is open. 0 too where
    /// there is no next step: the run is over, or the allowance is used up. This processor's own choice.
    pub fn argument_count(&self) -> u32
    {
        if self.fate.is_none() && self.steps < self.allowance {
            performed_count(&self.work)
        } else {
            0
        }
    }

    /// An argument of the call that the next step performs, a cell for each character. The name is argument 0. None
    /// where the call has no such argument, and where `argument_count` is 0. Looks at the arguments up to this one.
    /// This processor's own choice.
    pub fn argument(&self, which: u32) -> Option<&[Cell]>
    {
        if self.fate.is_none() && self.steps < self.allowance {
            performed_argument(&self.work, which)
        } else {
            None
        }
    }
}

/// How many arguments the call has that a step over these contents performs, the name counted; 0 if it performs
/// none.
fn performed_count(work: &Work) -> u32
{
    match closed_call(work) {
        None => 0,
        Some(place) => arguments_left(work, arguments_at(work, place)),
    }
}

/// An argument of the call that a step over these contents performs, the name being argument 0.
fn performed_argument<'w>(work: &'w Work, which: u32) -> Option<&'w [Cell]>
{
    let Some(place) = closed_call(work) else {
        return None;
    };
    let mut arguments = arguments_at(work, place);
    for _before in 0..which {
        if arguments.is_empty() {
            return None;
        }
        arguments.next(work);
    }
    if arguments.is_empty() {
        return None;
    }
    Some(text(work, arguments.next(work)))
}

/// How many arguments are left to take.
fn arguments_left(work: &Work, mut arguments: Arguments) -> u32
{
    let mut count = 0;
    while !arguments.is_empty() {
        let _ = arguments.next(work);
        count += 1;
    }
    count
}
