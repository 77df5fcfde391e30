// Generated from crates/trac_core/src/machine/closing.rt by hosts/rust/generate, and never edited.
//! The call that the next step of a machine performs.

use crate::trac_core::scan::is_at;
use crate::trac_forms::Work;
use crate::trac_functions::arguments::{Arguments, text};
use crate::trac_functions::function::function_named;
use crate::trac_language::Function;

/// Where the mark stands of the call that a step over these contents performs. None if it
/// performs no call.
#[inline]
pub(crate) fn closed_call(work: &Work) -> Option<u32>
{
    if is_at(work, 0, b')') {
        work.last_call()
    } else {
        None
    }
}

/// The arguments of the innermost call, whose mark stands at the place, the name first.
pub(super) fn arguments_at(work: &Work, place: u32) -> Arguments
{
    let end = work.neutral_len();
    Arguments {
        from: place + 1,
        end,
        scanned: false,
    }
}

/// The function that the innermost call names, whose mark stands at the place, and the arguments
/// behind the name.
pub(super) fn named_at(work: &Work, place: u32) -> (Option<Function>, Arguments)
{
    let mut arguments = arguments_at(work, place);
    let name = arguments.next(work);
    (function_named(text(work, name)), arguments)
}
