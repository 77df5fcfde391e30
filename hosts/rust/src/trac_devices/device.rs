// Generated from crates/trac_devices/src/device.rt by hosts/rust/generate, and never edited.
//! What a machine reads from and writes to.

use crate::trac_devices::characters::Characters;
use itoa::Buffer;
use crate::trac_space::Neutral;

/// What a source answers when it is asked for its next byte.
#[derive(Clone, Copy, Debug, PartialEq, Eq)]
pub enum Next {
    /// The next byte, which is consumed.
    Byte(u8),
    /// No more bytes come. From then on the source always answers this.
    End,
    /// Reading failed, and nothing was consumed.
    Failed,
}

/// The sink couldn't take a byte, or couldn't flush what it had taken.
#[derive(Clone, Copy, Debug, PartialEq, Eq)]
pub struct SinkFailed;

/// A source of bytes, which may end and may fail. That it reports its failures, and that a failure
/// consumes nothing, is this processor's own choice.
pub trait Source {
    /// Appends bytes that the source already holds to a neutral string, by `Neutral::push_before`: those
    /// before the first `stop`, as many as fit, or fewer. They are consumed. It waits for nothing and can't
    /// fail. A source that holds no bytes inherits this method.
    fn take_held<N: Neutral>(&mut self, stop: u8, neutral: &mut N)
    {}

    /// The next byte, the end, or a failure. A source that has ended answers the end at each later call.
    fn next(&mut self) -> Next;

    /// The number of failures so far.
    fn failures(&self) -> u64;
}

/// A sink of bytes, which may fail. That it reports its failures, and that a failure takes nothing, is this
/// processor's own choice.
pub trait Sink {
    /// Takes a byte. On an error it takes nothing.
    fn put(&mut self, byte: u8) -> Result<(), SinkFailed>;

    /// Takes the characters of a text in their order. On an error it has taken a first part of them.
    fn put_all(&mut self, text: &Characters<'_>) -> Result<(), SinkFailed>
    {
        for i in 0..text.len() {
            self.put(text.at(i))?;
        }
        Ok(())
    }

    /// Takes bytes in their order. On an error it has taken a first part of them.
    fn put_bytes(&mut self, bytes: &[u8]) -> Result<(), SinkFailed>
    {
        for byte in bytes {
            self.put(*byte)?;
        }
        Ok(())
    }

    /// Takes the decimal digits of a number. On an error it has taken a first part of them.
    fn put_number(&mut self, number: u32) -> Result<(), SinkFailed>
    {
        let mut buffer = Buffer::new();
        self.put_bytes(buffer.format(number).as_bytes())
    }

    /// Sends on what was taken.
    fn flush(&mut self) -> Result<(), SinkFailed>;

    /// The number of failures so far.
    fn failures(&self) -> u64;
}
