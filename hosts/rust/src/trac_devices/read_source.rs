// Generated from crates/trac_devices/src/read_source.rt by hosts/rust/generate, and never edited.
//! A source over a reader.

use crate::trac_devices::device::{Next, Source};
use std::io::Read;

/// A source over a reader, from which it reads one byte at a time. Each error is a failure, an interrupted
/// read too. After a read of no byte it has ended, and reads no more. This processor's own choice.
pub struct ReadSource<R> {
    reader: R,
    ended: bool,
    failures: u64,
}

impl<R: Read> ReadSource<R> {
    /// A source that gives what the reader gives.
    pub fn new(reader: R) -> ReadSource<R>
    {
        ReadSource {
            reader,
            ended: false,
            failures: 0,
        }
    }
}

impl<R: Read> Source for ReadSource<R> {
    fn next(&mut self) -> Next
    {
        if self.ended {
            return Next::End;
        }
        let mut byte = [0];
        match self.reader.read(&mut byte) {
            Ok(0) => {
                self.ended = true;
                Next::End
            }
            Ok(_) => Next::Byte(byte[0]),
            Err(_) => {
                self.failures += 1;
                Next::Failed
            }
        }
    }

    fn failures(&self) -> u64 {
        self.failures
    }
}
