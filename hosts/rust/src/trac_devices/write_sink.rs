// Generated from crates/trac_devices/src/write_sink.rt by hosts/rust/generate, and never edited.
//! A sink over a writer.

use crate::trac_devices::device::{Sink, SinkFailed};
use std::io::Write;

/// A sink over a writer, to which it writes one byte at a time. An error, or a write of no byte, is a
/// failure. This processor's own choice.
pub struct WriteSink<W> {
    writer: W,
    failures: u64,
    is_flushed: bool,
}

impl<W: Write> WriteSink<W> {
    /// A sink that writes to the writer.
    pub fn new(writer: W) -> WriteSink<W>
    {
        WriteSink {
            writer,
            failures: 0,
            is_flushed: true,
        }
    }
}

impl<W: Write> Sink for WriteSink<W> {
    fn put(&mut self, byte: u8) -> Result<(), SinkFailed> {
        self.is_flushed = false;
        match self.writer.write(&[byte]) {
            Ok(1) => Ok(()),
            _ => {
                self.failures += 1;
                Err(SinkFailed)
            }
        }
    }

    fn flush(&mut self) -> Result<(), SinkFailed> {
        match self.writer.flush() {
            Ok(()) => {
                self.is_flushed = true;
                Ok(())
            }
            Err(_) => {
                self.failures += 1;
                Err(SinkFailed)
            }
        }
    }

    fn failures(&self) -> u64 {
        self.failures
    }
}
