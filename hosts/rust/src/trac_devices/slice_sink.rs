// Generated from crates/trac_devices/src/slice_sink.rt by hosts/rust/generate, and never edited.
//! A sink over memory.

use crate::trac_devices::device::{Sink, SinkFailed};

/// A sink over memory, for embedding and for tests. It fails when its memory is full, and at one flush that
/// you can choose. This processor's own choice.
pub struct SliceSink<'a> {
    room: &'a mut [u8],
    len: usize,
    /// How many flushes are left up to the one that fails, that one included; 0 if none fails.
    flushes_left: u64,
    failures: u64,
    is_flushed: bool,
}

impl<'a> SliceSink<'a> {
    /// A sink that writes over the bytes of `room`. Flush number `flush_fault`, from 1, fails; with None or 0
    /// no flush does.
    pub fn new(room: &'a mut [u8], flush_fault: Option<u64>) -> SliceSink<'a>
    {
        SliceSink {
            room,
            len: 0,
            flushes_left: flush_fault.unwrap_or(0),
            failures: 0,
            is_flushed: true,
        }
    }

    /// The bytes written.
    pub fn written(&self) -> &[u8]
    {
        &self.room[..self.len]
    }
}

impl Sink for SliceSink<'_> {
    fn put(&mut self, byte: u8) -> Result<(), SinkFailed>
    {
        if self.len < self.room.len() {
            self.room[self.len] = byte;
            self.len += 1;
            self.is_flushed = false;
            Ok(())
        } else {
            self.failures += 1;
            Err(SinkFailed)
        }
    }

    fn flush(&mut self) -> Result<(), SinkFailed>
    {
        if self.flushes_left > 0 {
            self.flushes_left -= 1;
            if self.flushes_left == 0 {
                self.failures += 1;
                return Err(SinkFailed);
            }
        }
        self.is_flushed = true;
        Ok(())
    }

    fn failures(&self) -> u64 {
        self.failures
    }
}
