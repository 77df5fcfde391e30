// Generated from crates/trac_functions/src/arguments.rt by hosts/rust/generate, and never edited.
//! The arguments of a call, taken one after the other, and the value that is put behind them.

use crate::trac_functions::function::function_before_comma;
use crate::trac_forms::{Cell, Work, before_comma};
use crate::trac_language::{Fate, Function};
use crate::trac_space::Part;

/// The arguments of a call that are left to take: those in the neutral string from place `from` up to
/// place `end`, counted in cells. None is left once `from` is past `end`.
#[derive(Clone, Copy, Debug)]
pub struct Arguments {
    pub from: u32,
    pub end: u32,
    /// Whether the value goes to the active string, as that of an active call does.
    pub scanned: bool,
}

/// What a function answers to a call.
#[derive(Clone, Copy, PartialEq, Eq, Debug)]
pub enum CallResult {
    /// There are too few cells for what the call builds. The forms are as they were, and the run ends.
    Full,
    /// The value stands at the end of the neutral string. It is null where nothing was appended.
    AtEnd,
    /// The value, of this many characters, goes to the active string, and stands before it already.
    InFront(u32),
    /// The value of a neutral call, of this many characters, stands before the active string. It moves to
    /// the end of the neutral string when the call leaves.
    Unscanned(u32),
    /// The value is null. The call built this many cells of forms.
    Null(u32),
    /// The run is over, by the language or because a device failed.
    Over(Fate),
}

impl Arguments {
    /// Takes the next argument, and gives the part of the neutral string where it stands: a null part if no
    /// argument is left.
    pub fn next(&mut self, work: &Work) -> Part
    {
        let from = self.from;
        if from > self.end {
            return Part {
                from: self.end,
                to: self.end,
            };
        }
        let to = self.end_of_next(work);
        self.from = to + 1;
        Part { from, to }
    }

    // The place where the next argument ends. It is found without a search where no comma mark stands from its
    // beginning on.
    fn end_of_next(&self, work: &Work) -> u32
    {
        if self.from >= work.no_comma_from() {
            return self.end;
        }
        self.from + before_comma(work.neutral_part(self.from, self.end))
    }

    /// Takes the next argument if it names a function, and gives that function. None if it names none. At
    /// least one argument must be left.
    #[inline]
    pub fn function(&mut self, work: &Work) -> Option<Function>
    {
        let Some(function) = function_before_comma(work.neutral_part(self.from, self.end)) else {
            return None;
        };
        self.from += 3;
        Some(function)
    }

    /// Whether no argument is left.
    pub fn is_empty(&self) -> bool
    {
        self.from > self.end
    }
}

/// The cells of a part of the neutral string that is a text, not copied.
pub fn text<'a>(work: &'a Work, part: Part) -> &'a [Cell]
{
    work.neutral_part(part.from, part.to)
}

/// Copies a part of the neutral string that is a text to the end of that string. False, with nothing
/// changed, if the copy doesn't fit.
pub fn put_part(work: &mut Work, part: Part) -> bool
{
    work.copy_neutral(part.from, part.to)
}

/// Copies a part of the neutral string that is a text to the front of the active string. False, with
/// nothing changed, if the copy doesn't fit.
#[inline(always)]
pub fn load_part(work: &mut Work, part: Part) -> bool
{
    work.load_part(part.from, part.to)
}

/// Gives a part of the neutral string as the value of a call: copies it to the front of the active string if
/// it is `scanned` again, else to the end of the neutral string. `Full`, with no form changed, if the copy
/// doesn't fit.
#[inline(always)]
pub fn give(work: &mut Work, part: Part, scanned: bool) -> CallResult
{
    if scanned {
        if !load_part(work, part) {
            return CallResult::Full;
        }
        return CallResult::InFront(part.to - part.from);
    }
    if !put_part(work, part) {
        return CallResult::Full;
    }
    CallResult::AtEnd
}
