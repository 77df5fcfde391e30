// Generated from crates/trac_devices/src/input.rt by hosts/rust/generate, and never edited.
//! A source over a reader behind a buffer.

use crate::trac_devices::buffered::BufferedReader;
use crate::trac_devices::device::{Next, Source};
use crate::trac_devices::retrying::RetryingReader;
use std::io::Read;
use crate::trac_space::Neutral;

/// A source over a reader with a buffer of 8192 bytes, whose bytes it can give at once. It makes an
/// interrupted read again; any other error is a failure. After a read of no byte it has ended, and reads
/// no more. This processor's own choice.
pub struct Input<R> {
    reader: BufferedReader<RetryingReader<R>>,
    ended: bool,
}

impl<R: Read> Input<R> {
    /// A source that gives what the reader gives.
    pub fn new(reader: R) -> Input<R>
    {
        Input {
            reader: BufferedReader::new(RetryingReader::new(reader)),
            ended: false,
        }
    }
}

impl<R: Read> Source for Input<R> {
    fn take_held<N: Neutral>(&mut self, stop: u8, neutral: &mut N) {
        let count = neutral.push_before(stop, self.reader.held());
        self.reader.skip(count);
    }

    fn next(&mut self) -> Next
    {
        if self.ended {
            return Next::End;
        }
        let mut byte = [0];
        match self.reader.read(&mut byte) {
            Ok(0) => {
                self.ended = true;
                Next::End
            }
            Ok(_) => Next::Byte(byte[0]),
            Err(_) => Next::Failed,
        }
    }

    fn failures(&self) -> u64 {
        self.reader.failures()
    }
}
