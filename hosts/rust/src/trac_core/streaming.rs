// Generated from crates/trac_core/src/streaming.rt by hosts/rust/generate, and never edited.
//! Bytes from a source into the neutral string, and from there to a sink.

use crate::trac_devices::{Characters, Next, Sink, SinkFailed, Source};
use crate::trac_forms::Work;
use crate::trac_space::Cell;

// How many characters are put one by one.
const PUT_ONE_BY_ONE: usize = 16;

/// How the reading of a text ended.
#[derive(Clone, Copy, Debug, PartialEq, Eq)]
pub(crate) enum ReadEnd {
    /// The meta character followed, and was consumed.
    Meta,
    /// The source ended.
    Ended,
    /// The source failed.
    Failed,
    /// No cell was free for a byte that followed.
    Full,
}

/// Puts the bytes of a source up to the meta character at the end of the neutral string, as far as
/// they fit. Those that the source holds already go at once.
pub(crate) fn read_text<I: Source>(work: &mut Work, meta: u8, source: &mut I) -> ReadEnd
{
    loop {
        source.take_held(meta, work);
        match source.next() {
            Next::Byte(byte) if byte == meta => return ReadEnd::Meta,
            Next::Byte(byte) => {
                if !work.push_neutral(Cell::Byte(byte)) {
                    return ReadEnd::Full;
                }
            }
            Next::End => return ReadEnd::Ended,
            Next::Failed => return ReadEnd::Failed,
        }
    }
}

/// Puts the characters of a text into a sink, and then flushes it where there was one.
pub(crate) fn print_text<O: Sink>(text: &Characters<'_>, sink: &mut O) -> Result<(), SinkFailed>
{
    if text.len() == 0 {
        return Ok(());
    }
    if let Err(failed) = put_characters(text, sink) {
        return Err(failed);
    }
    sink.flush()
}

/// Puts the characters of a text into a sink, those of a longer one at once.
#[inline(always)]
pub(crate) fn put_characters<O: Sink>(text: &Characters<'_>, sink: &mut O) -> Result<(), SinkFailed>
{
    if text.len() < PUT_ONE_BY_ONE {
        put_each(text, sink)
    } else {
        sink.put_all(text)
    }
}

// Puts the characters of a text into a sink, one by one.
fn put_each<O: Sink>(text: &Characters<'_>, sink: &mut O) -> Result<(), SinkFailed>
{
    for i in 0..text.len() {
        sink.put(text.at(i))?;
    }
    Ok(())
}
