// Generated from crates/trac_core/src/input_output.rt by hosts/rust/generate, and never edited.
//! The functions that read, print and change the meta
//! character: `rs`, `rc`, `ps`, `cm`.

use crate::trac_core::streaming::{ReadEnd, print_text, read_text};
use crate::trac_devices::{Characters, Next, Sink, Source};
use crate::trac_forms::Work;
use crate::trac_functions::arguments::{Arguments, CallResult, text};
use crate::trac_language::{Fate, Function};
use crate::trac_space::{Cell, character_of};

/// `rs`: the input up to the meta character, which is consumed (Mooers 1966).
/// A last string that no meta character follows is a value too, and the end
/// of the input with no byte read ends the run (this processor's own choice).
pub(crate) fn read_string<I: Source>(work: &mut Work, meta: u8, source: &mut I) -> CallResult
{
    let from = work.neutral_len();
    match read_text(work, meta, source) {
        ReadEnd::Meta if work.neutral_len() == from => CallResult::Null(0),
        ReadEnd::Meta => CallResult::AtEnd,
        ReadEnd::Ended if work.neutral_len() == from => CallResult::Over(Fate::InputEnded),
        ReadEnd::Ended => CallResult::AtEnd,
        ReadEnd::Failed => CallResult::Over(Fate::InputFailed),
        ReadEnd::Full => CallResult::Full,
    }
}

/// `rc`: the next byte of the input, whatever it is (Mooers 1966). At
/// the end of the input the run ends (this processor's own choice).
pub(crate) fn read_character<I: Source>(work: &mut Work, source: &mut I) -> CallResult
{
    match source.next() {
        Next::Byte(byte) => {
            if work.push_neutral(Cell::Byte(byte)) {
                CallResult::AtEnd
            } else {
                CallResult::Full
            }
        }
        Next::End => CallResult::Over(Fate::InputEnded),
        Next::Failed => CallResult::Over(Fate::InputFailed),
    }
}

/// `ps,X`: X is printed, and the sink flushed once where X isn't null (Mooers 1966).
pub(crate) fn print_string<O: Sink>(
    work: &Work,
    mut arguments: Arguments,
    sink: &mut O,
) -> CallResult
{
    let part = arguments.next(work);
    let printed = Characters::new(text(work, part));
    match print_text(&printed, sink) {
        Ok(()) => CallResult::Null(0),
        Err(_) => CallResult::Over(Fate::OutputFailed),
    }
}

/// `cm,X`: the first character of X becomes the meta character (Mooers
/// 1966); a null X changes nothing (this processor's own choice).
pub(crate) fn change_meta(work: &Work, mut arguments: Arguments, meta: &mut u8) -> CallResult
{
    let part = arguments.next(work);
    if let Some(first) = first_character(text(work, part)) {
        *meta = first;
    }
    CallResult::Null(0)
}

/// The first character of a text.
fn first_character(text: &[Cell]) -> Option<u8>
{
    match text {
        [first, ..] => Some(character_of(first)),
        [] => None,
    }
}
