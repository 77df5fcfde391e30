// Generated from crates/trac_devices/src/output.rt by hosts/rust/generate, and never edited.
//! A sink over a writer behind a buffer.

use crate::trac_devices::buffered::BufferedWriter;
use crate::trac_devices::characters::Characters;
use crate::trac_devices::device::{Sink, SinkFailed};
use crate::trac_devices::retrying::RetryingWriter;
use std::io::Write;

/// A sink over a writer with a buffer of 8192 bytes. It is flushed if no bytes wait in the buffer and the
/// writer was flushed after its last write. It makes an interrupted call again; any other error, or a write
/// of no byte, is a failure. This processor's own choice.
pub struct Output<W> {
    writer: BufferedWriter<RetryingWriter<W>>,
}

impl<W: Write> Output<W> {
    /// A sink that writes to the writer.
    pub fn new(writer: W) -> Output<W>
    {
        Output {
            writer: BufferedWriter::new(RetryingWriter::new(writer)),
        }
    }
}

impl<W: Write> Sink for Output<W> {
    #[inline]
    fn put(&mut self, byte: u8) -> Result<(), SinkFailed> {
        match self.writer.write(&[byte]) {
            Ok(1) => Ok(()),
            _ => Err(SinkFailed),
        }
    }

    fn put_all(&mut self, text: &Characters<'_>) -> Result<(), SinkFailed> {
        let mut taken = 0;
        while taken < text.len() {
            let rest = text.part(taken, text.len());
            match self.writer.write_text(&rest) {
                Ok(count) => taken += count,
                Err(_) => return Err(SinkFailed),
            }
        }
        Ok(())
    }

    fn flush(&mut self) -> Result<(), SinkFailed> {
        match self.writer.flush() {
            Ok(()) => Ok(()),
            Err(_) => Err(SinkFailed),
        }
    }

    fn failures(&self) -> u64 {
        self.writer.failures()
    }
}
