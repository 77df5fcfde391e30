// Generated from crates/trac_devices/src/retrying.rt by hosts/rust/generate, and never edited.
//! A reader and a writer that make an interrupted call again.

use std::io;
use std::io::{ErrorKind, Read, Write};

/// A call that is interrupted each time is made this many times: 1,000,000.
pub const TRIES: u32 = 1_000_000;

/// A reader that makes a read again if a signal interrupted it; that is no failure. After `TRIES`
/// interrupted reads in a row it answers an error of the kind `TimedOut`, so each call returns. Any other
/// error is the reader's own. This processor's own choice.
pub struct RetryingReader<R> {
    reader: R,
}

impl<R: Read> RetryingReader<R> {
    /// A reader that gives what `reader` gives.
    pub fn new(reader: R) -> RetryingReader<R>
    {
        RetryingReader { reader }
    }
}

impl<R: Read> Read for RetryingReader<R> {
    fn read(&mut self, buf: &mut [u8]) -> io::Result<usize>
    {
        read_again(&mut self.reader, buf)
    }
}

/// A writer that makes a write or a flush again if a signal interrupted it; that is no failure. After
/// `TRIES` interrupted calls in a row it answers an error of the kind `TimedOut`, so each call returns. Any
/// other error is the writer's own. This processor's own choice.
pub struct RetryingWriter<W> {
    writer: W,
}

impl<W: Write> RetryingWriter<W> {
    /// A writer that writes to `writer`.
    pub fn new(writer: W) -> RetryingWriter<W>
    {
        RetryingWriter { writer }
    }
}

impl<W: Write> Write for RetryingWriter<W> {
    fn write(&mut self, buf: &[u8]) -> io::Result<usize>
    {
        write_again(&mut self.writer, buf)
    }

    fn flush(&mut self) -> io::Result<()>
    {
        flush_again(&mut self.writer)
    }
}

// Reads once, and again as long as the read is interrupted, at most `TRIES` times.
fn read_again<R: Read>(reader: &mut R, buf: &mut [u8]) -> io::Result<usize>
{
    for _ in 0..TRIES {
        match reader.read(buf) {
            Ok(count) => return Ok(count),
            Err(error) if error.kind() == ErrorKind::Interrupted => {}
            Err(error) => return Err(error),
        }
    }
    Err(io::Error::from(ErrorKind::TimedOut))
}

// Writes once, and again as long as the write is interrupted, at most `TRIES` times.
fn write_again<W: Write>(writer: &mut W, buf: &[u8]) -> io::Result<usize>
{
    for _ in 0..TRIES {
        match writer.write(buf) {
            Ok(count) => return Ok(count),
            Err(error) if error.kind() == ErrorKind::Interrupted => {}
            Err(error) => return Err(error),
        }
    }
    Err(io::Error::from(ErrorKind::TimedOut))
}

// Flushes once, and again as long as the flush is interrupted, at most `TRIES` times.
fn flush_again<W: Write>(writer: &mut W) -> io::Result<()>
{
    for _ in 0..TRIES {
        match writer.flush() {
            Ok(()) => return Ok(()),
            Err(error) if error.kind() == ErrorKind::Interrupted => {}
            Err(error) => return Err(error),
        }
    }
    Err(io::Error::from(ErrorKind::TimedOut))
}
