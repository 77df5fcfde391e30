// Generated from crates/trac_core/src/call.rt by hosts/rust/generate, and never edited.
//! Calls: one is performed when its right parenthesis is scanned. The table of functions stands in
//! `trac_functions::function`. The functions that read, print, change the meta character or end the
//! run are called here; one that reads or prints has a line in `needs_device` too.

use crate::trac_core::delivery::{finish_call, is_active_call};
use crate::trac_core::display::print_form;
use crate::trac_core::idling::load_idling;
use crate::trac_core::input_output::{change_meta, print_string, read_character, read_string};
use crate::trac_core::outcome::StepOutcome;
use crate::trac_core::scan::NextAction;
use crate::trac_devices::{Sink, Source};
use crate::trac_forms::Work;
use crate::trac_functions::arguments::{Arguments, CallResult};
use crate::trac_functions::function::value_of;
use crate::trac_language::{Fate, Function};
use crate::trac_space::Part;

/// The step that the beginning of the active string asks for, where no rule fits that only scans:
/// the idling procedure is loaded, or the right parenthesis is deleted and the innermost call
/// performed.
#[inline(always)]
pub(crate) fn perform_next<I: Source, O: Sink>(
    work: &mut Work,
    action: NextAction,
    meta: &mut u8,
    source: &mut I,
    sink: &mut O,
) -> StepOutcome
{
    match action {
        NextAction::Idling => load_idling(work),
        NextAction::EndOfCall(place) => {
            work.drop_active(1);
            perform(work, place, meta, source, sink)
        }
    }
}

/// Performs the innermost call, whose mark stands at the place and whose right parenthesis was deleted.
#[inline(always)]
fn perform<I: Source, O: Sink>(
    work: &mut Work,
    place: u32,
    meta: &mut u8,
    source: &mut I,
    sink: &mut O,
) -> StepOutcome
{
    let before = work.used();
    let part = Part {
        from: place,
        to: work.neutral_len(),
    };
    let parts = named(work, place);
    let Some(function) = parts.function else {
        return finish_call(work, part, before, nothing(work, parts));
    };
    let call_result = answer(work, parts, function, meta, source, sink);
    finish_call(work, part, before, call_result)
}

/// Performs the innermost call, whose right parenthesis was deleted and which needs no device.
#[inline(always)]
pub(crate) fn perform_alone(work: &mut Work, call: NamedCall, meta: &mut u8) -> StepOutcome
{
    let before = work.used();
    let end = work.neutral_len();
    let call_result = answer_alone(work, call, meta);
    let part = Part {
        from: call.place,
        to: end,
    };
    finish_call(work, part, before, call_result)
}

/// The innermost call by its parts.
#[derive(Clone, Copy, Debug)]
pub(crate) struct NamedCall {
    /// Where its mark stands in the neutral string.
    place: u32,
    /// The function that it names, if it names one.
    pub(crate) function: Option<Function>,
    /// The arguments behind that name.
    arguments: Arguments,
}

/// The parts of the innermost call, whose mark stands at the place.
#[inline(always)]
pub(crate) fn named(work: &Work, place: u32) -> NamedCall
{
    let mut arguments = Arguments {
        from: place + 1,
        end: work.neutral_len(),
        scanned: is_active_call(work, place),
    };
    NamedCall {
        place,
        function: arguments.function(work),
        arguments,
    }
}

/// Whether a call needs a device: it reads, it displays a form, or it prints a text that isn't null.
#[inline(always)]
pub(crate) fn needs_device(work: &Work, call: NamedCall) -> bool
{
    match call.function {
        Some(Function::ReadString | Function::ReadCharacter | Function::PrintForm) => true,
        Some(Function::PrintString) => has_text(work, call.arguments),
        _ => false,
    }
}

/// Whether a turn stops before a call for its host: its name is no function, and `stops` says to stop there.
#[inline(always)]
pub(crate) fn asks_host(stops: bool, call: NamedCall) -> bool
{
    call.function.is_none() && stops
}

/// Whether the next argument is a text that isn't null.
#[inline(always)]
fn has_text(work: &Work, mut arguments: Arguments) -> bool
{
    let part = arguments.next(work);
    part.from < part.to
}

/// What a call of a name that is no function answers: its value is null (this processor's own choice).
#[inline(always)]
fn nothing(work: &Work, call: NamedCall) -> CallResult
{
    CallResult::Null(0)
}

/// What the function of the innermost call answers, which is `function`.
#[inline(always)]
fn answer<I: Source, O: Sink>(
    work: &mut Work,
    call: NamedCall,
    function: Function,
    meta: &mut u8,
    source: &mut I,
    sink: &mut O,
) -> CallResult
{
    match function {
        Function::ReadString => read_string(work, *meta, source),
        Function::ReadCharacter => read_character(work, source),
        Function::PrintString => print_string(work, call.arguments, sink),
        Function::PrintForm => print_form(work, call.arguments, sink),
        _ => result_alone(work, function, call.arguments, meta),
    }
}

/// What the function of a call answers that needs no device.
#[inline(always)]
fn answer_alone(work: &mut Work, call: NamedCall, meta: &mut u8) -> CallResult
{
    match call.function {
        None => CallResult::Null(0),
        Some(function) => match function {
            Function::PrintString => CallResult::Null(0),
            _ => result_alone(work, function, call.arguments, meta),
        },
    }
}

/// What a function that touches no device makes of the arguments that follow its name.
#[inline(always)]
fn result_alone(
    work: &mut Work,
    function: Function,
    arguments: Arguments,
    meta: &mut u8,
) -> CallResult
{
    match function {
        Function::ChangeMeta => change_meta(work, arguments, meta),
        Function::Halt => CallResult::Over(Fate::Halted),
        _ => value_of(work, function, arguments),
    }
}
