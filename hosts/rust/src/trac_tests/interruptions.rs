// Generated from crates/trac_tests/src/interruptions.rt by hosts/rust/generate, and never edited.
//! Calls of the system that are interrupted, and are tried again or not.

use crate::trac_tests::fakes::FakeReader;
use std::io;
use std::io::{ErrorKind, Read, Write};
use crate::stand_in::Fail;
use crate::{
    Cell, Fate, Machine, Next, ReadSource, RetryingReader, RetryingWriter, Sink, Source, TRIES,
    WriteSink,
};

const AMPLE: usize = 1000;

const MANY: u64 = 1_000_000;

const HELLO: &str = "#(ps,hello)'";

/// Counts calls of the system, each of which is interrupted a number of times before it is done.
struct Interruptions {
    each: u32,
    left: u32,
    calls: u32,
}

impl Interruptions {
    fn new(each: u32) -> Interruptions {
        Interruptions {
            each,
            left: each,
            calls: 0,
        }
    }

    fn call(&mut self) -> io::Result<()> {
        self.calls = self.calls.saturating_add(1);
        if self.left > 0 {
            self.left -= 1;
            return Err(io::Error::from(ErrorKind::Interrupted));
        }
        self.left = self.each;
        Ok(())
    }
}

/// A reader of a text, each of whose reads is interrupted.
struct InterruptedReader<'a> {
    text: &'a [u8],
    system: &'a mut Interruptions,
}

impl Read for InterruptedReader<'_> {
    fn read(&mut self, buf: &mut [u8]) -> io::Result<usize> {
        self.system.call()?;
        let n = self.text.len().min(buf.len());
        let (given, rest) = self.text.split_at(n);
        buf[..n].copy_from_slice(given);
        self.text = rest;
        Ok(n)
    }
}

/// A writer, each of whose writes and flushes is interrupted.
struct InterruptedWriter<'a> {
    taken: &'a mut Vec<u8>,
    system: &'a mut Interruptions,
}

impl Write for InterruptedWriter<'_> {
    fn write(&mut self, buf: &[u8]) -> io::Result<usize> {
        self.system.call()?;
        self.taken.extend_from_slice(buf);
        Ok(buf.len())
    }

    fn flush(&mut self) -> io::Result<()> {
        self.system.call()
    }
}

// 13 reads, of which the last finds the end; 5 writes and a flush.
#[test]
fn interruptions_are_no_failures() -> Result<(), Fail> {
    for each in [0, 1, 100] {
        let mut block = [Cell::Byte(0); AMPLE];
        let mut taken = Vec::new();
        let mut reads = Interruptions::new(each);
        let mut writes = Interruptions::new(each);
        let mut source = ReadSource::new(RetryingReader::new(InterruptedReader {
            text: HELLO.as_bytes(),
            system: &mut reads,
        }));
        let mut sink = WriteSink::new(RetryingWriter::new(InterruptedWriter {
            taken: &mut taken,
            system: &mut writes,
        }));
        let report = Machine::over(&mut block, MANY).run(&mut source, &mut sink);
        assert_eq!(report.fate, Fate::InputEnded, "{each}");
        assert_eq!((source.failures(), sink.failures()), (0, 0), "{each}");
        drop(source);
        drop(sink);
        assert!(taken.as_slice() == b"hello".as_slice(), "{each}");
        assert_eq!(
            (reads.calls, writes.calls),
            (13 * (each + 1), 6 * (each + 1))
        );
    }
    Ok(())
}

#[test]
fn interruptions_without_end() -> Result<(), Fail> {
    for (each, kind) in [(TRIES - 1, None), (TRIES, Some(ErrorKind::TimedOut))] {
        let mut taken = Vec::new();
        let mut reads = Interruptions::new(each);
        let mut writes = Interruptions::new(each);
        let mut flushes = Interruptions::new(each);
        let read = RetryingReader::new(InterruptedReader {
            text: b"a",
            system: &mut reads,
        })
        .read(&mut [0]);
        assert_eq!(read.err().map(|error| error.kind()), kind);
        let written = RetryingWriter::new(InterruptedWriter {
            taken: &mut taken,
            system: &mut writes,
        })
        .write(b"a");
        assert_eq!(written.err().map(|error| error.kind()), kind);
        let flushed = RetryingWriter::new(InterruptedWriter {
            taken: &mut taken,
            system: &mut flushes,
        })
        .flush();
        assert_eq!(flushed.err().map(|error| error.kind()), kind);
        assert_eq!(
            (reads.calls, writes.calls, flushes.calls),
            (TRIES, TRIES, TRIES)
        );
        assert_eq!(taken.len(), usize::from(kind.is_none()));
    }
    Ok(())
}

#[test]
fn other_errors_are_not_tried_again() {
    let mut reader = RetryingReader::new(FakeReader::new(b"a", usize::MAX, 1));
    let read = reader.read(&mut [0]);
    assert_eq!(
        read.err().map(|error| error.kind()),
        Some(ErrorKind::Other)
    );
    assert!(matches!(reader.read(&mut [0]), Ok(1)));
    let mut reads = Interruptions::new(1);
    let mut plain = ReadSource::new(InterruptedReader {
        text: b"a",
        system: &mut reads,
    });
    assert_eq!(plain.next(), Next::Failed);
    assert_eq!(plain.failures(), 1);
    assert_eq!(plain.next(), Next::Byte(b'a'));
}
