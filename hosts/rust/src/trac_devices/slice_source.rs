// Generated from crates/trac_devices/src/slice_source.rt by hosts/rust/generate, and never edited.
//! A source over memory.

use crate::trac_devices::device::{Next, Source};
use crate::trac_space::Neutral;

/// A source over bytes in memory, for embedding and for tests. It fails at a place that you can choose.
/// This processor's own choice.
pub struct SliceSource<'a> {
    bytes: &'a [u8],
    fails: bool,
    ended: bool,
    failures: u64,
}

impl<'a> SliceSource<'a> {
    /// A source that gives all the bytes and then ends. If `fails_at` is at most their number, it gives only
    /// the bytes before that place, and then fails at each call.
    pub fn new(bytes: &'a [u8], fails_at: Option<u64>) -> SliceSource<'a>
    {
        match fails_at {
            Some(place) if place <= bytes.len() as u64 => SliceSource {
                bytes: &bytes[..place as usize],
                fails: true,
                ended: false,
                failures: 0,
            },
            _ => SliceSource {
                bytes,
                fails: false,
                ended: false,
                failures: 0,
            },
        }
    }

    /// The bytes still to come.
    pub fn rest(&self) -> &[u8]
    {
        self.bytes
    }
}

impl Source for SliceSource<'_> {
    fn take_held<N: Neutral>(&mut self, stop: u8, neutral: &mut N)
    {
        let count = neutral.push_before(stop, self.bytes);
        self.bytes = &self.bytes[count..];
    }

    fn next(&mut self) -> Next
    {
        if self.ended {
            return Next::End;
        }
        match self.bytes {
            [first, rest @ ..] => {
                self.bytes = rest;
                Next::Byte(*first)
            }
            [] if self.fails => {
                self.failures += 1;
                Next::Failed
            }
            [] => {
                self.ended = true;
                Next::End
            }
        }
    }

    fn failures(&self) -> u64 {
        self.failures
    }
}
