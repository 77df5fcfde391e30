// Generated from crates/trac_devices/src/buffered.rt by hosts/rust/generate, and never edited.
//! Buffers of fixed size in front of a reader and behind a writer.

use crate::trac_devices::characters::Characters;
use crate::trac_devices::counted::{InputDevice, OutputDevice};
use std::io;
use std::io::{Read, Write};

const CAPACITY: usize = 8192;

/// A reader that reads up to 8192 bytes ahead. It holds `bytes[start..end]`, which are read and not yet
/// given.
pub struct BufferedReader<R> {
    device: InputDevice<R>,
    bytes: [u8; CAPACITY],
    start: usize,
    end: usize,
}

impl<R: Read> BufferedReader<R> {
    /// Puts a buffer in front of a reader. It holds nothing yet.
    pub fn new(reader: R) -> BufferedReader<R>
    {
        BufferedReader {
            device: InputDevice::new(reader),
            bytes: [0; CAPACITY],
            start: 0,
            end: 0,
        }
    }

    /// The bytes that the buffer holds: they are read and not yet given.
    #[inline]
    pub fn held(&self) -> &[u8]
    {
        &self.bytes[self.start..self.end]
    }

    /// Drops the first `count` of the bytes that the buffer holds.
    #[inline]
    pub fn skip(&mut self, count: usize)
    {
        self.start += count;
    }

    /// The number of failed reads so far.
    pub fn failures(&self) -> u64
    {
        self.device.failures()
    }

    // Reads once if it holds nothing. After an error it still holds nothing.
    fn fill(&mut self) -> io::Result<()>
    {
        if self.start < self.end {
            return Ok(());
        }
        self.start = 0;
        self.end = 0;
        let n = self.device.read(&mut self.bytes)?;
        self.end = n;
        Ok(())
    }

    // Gives some of the bytes that it holds; if it holds none, it reads first.
    #[cold]
    #[inline(never)]
    fn read_part(&mut self, buf: &mut [u8]) -> io::Result<usize>
    {
        self.fill()?;
        let n = (self.end - self.start).min(buf.len());
        buf[..n].copy_from_slice(&self.bytes[self.start..self.start + n]);
        self.start += n;
        Ok(n)
    }
}

impl<R: Read> Read for BufferedReader<R> {
    #[inline]
    fn read(&mut self, buf: &mut [u8]) -> io::Result<usize>
    {
        if buf.len() == 1 && self.start < self.end {
            buf[0] = self.bytes[self.start];
            self.start += 1;
            return Ok(1);
        }
        self.read_part(buf)
    }
}

/// A writer that holds up to 8192 bytes back: `bytes[start..end]` are taken and not yet written. `flush`
/// writes them.
pub struct BufferedWriter<W> {
    device: OutputDevice<W>,
    bytes: [u8; CAPACITY],
    start: usize,
    end: usize,
}

impl<W: Write> BufferedWriter<W> {
    /// Puts a buffer behind a writer. No bytes wait yet.
    pub fn new(writer: W) -> BufferedWriter<W>
    {
        BufferedWriter {
            device: OutputDevice::new(writer),
            bytes: [0; CAPACITY],
            start: 0,
            end: 0,
        }
    }

    /// The number of failed writes and flushes so far.
    pub fn failures(&self) -> u64
    {
        self.device.failures()
    }

    // Writes all bytes that wait. After a failure the rest of them still waits.
    fn write_out(&mut self) -> io::Result<()>
    {
        let all = &self.bytes[..];
        let (written, result) = write_until_failure(&all[self.start..self.end], &mut self.device);
        self.start += written;
        result?;
        self.start = 0;
        self.end = 0;
        Ok(())
    }

    // Writes all bytes that wait if the buffer is full.
    fn make_room(&mut self) -> io::Result<()>
    {
        if self.end < CAPACITY {
            return Ok(());
        }
        self.write_out()
    }

    // Takes some of the bytes, at least one if there is one, and gives how many. Makes room for them first.
    #[inline(never)]
    fn write_part(&mut self, buf: &[u8]) -> io::Result<usize>
    {
        self.make_room()?;
        let n = (CAPACITY - self.end).min(buf.len());
        self.bytes[self.end..self.end + n].copy_from_slice(&buf[..n]);
        self.end += n;
        Ok(n)
    }

    /// Takes some of the characters, at least one if there is one, and gives how many. Makes room for them
    /// first; if that fails, it takes none.
    pub fn write_text(&mut self, text: &Characters<'_>) -> io::Result<usize>
    {
        self.make_room()?;
        let n = (CAPACITY - self.end).min(text.len());
        text.part(0, n)
            .write(&mut self.bytes[self.end..self.end + n]);
        self.end += n;
        Ok(n)
    }
}

// Writes until all bytes are written or a write fails, and gives how many were written.
fn write_until_failure<W: Write>(bytes: &[u8], to: &mut OutputDevice<W>) -> (usize, io::Result<()>)
{
    let mut written = 0;
    while written < bytes.len() {
        match to.write(&bytes[written..]) {
            Ok(n) => written += n,
            Err(error) => return (written, Err(error)),
        }
    }
    (written, Ok(()))
}

impl<W: Write> Write for BufferedWriter<W> {
    #[inline]
    fn write(&mut self, buf: &[u8]) -> io::Result<usize>
    {
        if buf.len() == 1 && self.end < CAPACITY {
            self.bytes[self.end] = buf[0];
            self.end += 1;
            return Ok(1);
        }
        self.write_part(buf)
    }

    fn flush(&mut self) -> io::Result<()>
    {
        self.write_out()?;
        self.device.flush()
    }
}
