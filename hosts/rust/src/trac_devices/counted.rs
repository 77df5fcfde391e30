// Generated from crates/trac_devices/src/counted.rt by hosts/rust/generate, and never edited.
//! The reader and the writer under the buffers, each with the number of its failures. Only an answer of the
//! device itself raises that number.

use std::io;
use std::io::{Read, Write};

/// A reader and the number of its failed reads.
pub(crate) struct InputDevice<R> {
    reader: R,
    failures: u64,
}

impl<R: Read> InputDevice<R> {
    /// Counts the failures of a reader, from 0.
    pub(crate) fn new(reader: R) -> InputDevice<R>
    {
        InputDevice {
            reader,
            failures: 0,
        }
    }

    /// Reads once, and answers what the reader answers. A read of no byte is the reader's end, not a failure.
    pub(crate) fn read(&mut self, buf: &mut [u8]) -> io::Result<usize>
    {
        let answer = self.reader.read(buf);
        if answer.is_err() {
            self.failures = self.failures.saturating_add(1);
        }
        answer
    }

    /// The number of failed reads so far.
    pub(crate) fn failures(&self) -> u64
    {
        self.failures
    }
}

/// A writer, the number of its failed writes and flushes, and whether all that it took is flushed.
pub(crate) struct OutputDevice<W> {
    writer: W,
    failures: u64,
    is_flushed: bool,
}

impl<W: Write> OutputDevice<W> {
    /// Counts the failures of a writer, from 0. The writer isn't flushed yet.
    pub(crate) fn new(writer: W) -> OutputDevice<W>
    {
        OutputDevice {
            writer,
            failures: 0,
            is_flushed: false,
        }
    }

    /// Writes once. A write that takes no byte is a failure.
    pub(crate) fn write(&mut self, bytes: &[u8]) -> io::Result<usize>
    {
        self.is_flushed = false;
        let written = match self.writer.write(bytes) {
            Ok(0) => Err(io::Error::from(io::ErrorKind::WriteZero)),
            answer => answer,
        };
        if written.is_err() {
            self.failures = self.failures.saturating_add(1);
        }
        written
    }

    /// Flushes once, and answers what the writer answers.
    pub(crate) fn flush(&mut self) -> io::Result<()>
    {
        let flushed = self.writer.flush();
        if flushed.is_ok() {
            self.is_flushed = true;
        } else {
            self.failures = self.failures.saturating_add(1);
        }
        flushed
    }

    /// The number of failed writes and flushes so far.
    pub(crate) fn failures(&self) -> u64
    {
        self.failures
    }
}
