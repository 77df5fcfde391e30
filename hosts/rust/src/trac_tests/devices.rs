// Generated from crates/trac_tests/src/devices.rt by hosts/rust/generate, and never edited.
//! Runs over sources, sinks, readers and writers of the tests' own, of which some fail.

use crate::trac_tests::fakes::{FakeReader, FakeWriter};
use crate::trac_tests::taking::takes;
use std::io;
use std::io::Write;
use crate::stand_in::Fail;
use crate::{
    Cell, Characters, Fate, Machine, Next, ReadSource, Report, Sink, SinkFailed, SliceSource,
    Source, Work, WriteSink, write_characters,
};

const AMPLE: usize = 1000;

const MANY: u64 = 1_000_000;

const HELLO: &str = "#(ps,hello)'";

const SHOWN: &str = "#(ds,F,a-b)#(ss,F,-)#(pf,F)'";

const LETTERS: &str = "#(ps,abcdefghijklmnopqrst)'";

/// A source of a text and then a number of letters, after which it fails or ends. It counts its calls.
struct FakeSource<'a> {
    text: &'a [u8],
    letters: u32,
    fails: bool,
    calls: u32,
    failures: u64,
}

impl<'a> FakeSource<'a> {
    fn new(text: &'a [u8], letters: u32, fails: bool) -> FakeSource<'a>
    {
        FakeSource {
            text,
            letters,
            fails,
            calls: 0,
            failures: 0,
        }
    }
}

impl Source for FakeSource<'_> {
    fn next(&mut self) -> Next {
        self.calls = self.calls.saturating_add(1);
        if let [first, rest @ ..] = self.text {
            self.text = rest;
            return Next::Byte(*first);
        }
        if self.letters > 0 {
            self.letters -= 1;
            return Next::Byte(b'a');
        }
        if self.fails {
            self.failures += 1;
            return Next::Failed;
        }
        Next::End
    }

    fn failures(&self) -> u64 {
        self.failures
    }
}

/// A sink that fails at the put and at the flush of these
/// numbers, counted from 1. It counts its calls.
struct FakeSink {
    bad_put: u32,
    bad_flush: u32,
    puts: u32,
    flushes: u32,
    failures: u64,
}

impl FakeSink {
    fn new(bad_put: u32, bad_flush: u32) -> FakeSink
    {
        FakeSink {
            bad_put,
            bad_flush,
            puts: 0,
            flushes: 0,
            failures: 0,
        }
    }
}

impl Sink for FakeSink {
    fn put(&mut self, _byte: u8) -> Result<(), SinkFailed> {
        self.puts = self.puts.saturating_add(1);
        if self.puts == self.bad_put {
            self.failures += 1;
            return Err(SinkFailed);
        }
        Ok(())
    }

    fn flush(&mut self) -> Result<(), SinkFailed> {
        self.flushes = self.flushes.saturating_add(1);
        if self.flushes == self.bad_flush {
            self.failures += 1;
            return Err(SinkFailed);
        }
        Ok(())
    }

    fn failures(&self) -> u64 {
        self.failures
    }
}

/// A writer that counts its flushes, of which the one of this number, counted from 1, fails.
struct FlushedWriter<'a> {
    flushes: &'a mut u32,
    bad_flush: u32,
}

impl Write for FlushedWriter<'_> {
    fn write(&mut self, buf: &[u8]) -> io::Result<usize> {
        Ok(buf.len())
    }

    fn flush(&mut self) -> io::Result<()> {
        *self.flushes = self.flushes.saturating_add(1);
        if *self.flushes == self.bad_flush {
            return Err(io::Error::from(io::ErrorKind::Other));
        }
        Ok(())
    }
}

#[test]
fn bytes_that_are_held() {
    let mut block = [Cell::Comma; 8];
    let mut source = SliceSource::new(b"abcde'fg", None);
    takes(&mut source, &mut block[..0], "");
    takes(&mut source, &mut block[..3], "abc");
    takes(&mut source, &mut block, "de");
    takes(&mut source, &mut block, "");
    assert_eq!(source.next(), Next::Byte(b'\''));
    takes(&mut source, &mut block, "fg");
    takes(&mut source, &mut block, "");
    assert_eq!(source.next(), Next::End);
    takes(&mut source, &mut block, "");
    assert_eq!(source.next(), Next::End);
    let mut failing = SliceSource::new(b"abcde'fg", Some(4));
    takes(&mut failing, &mut block, "abcd");
    assert_eq!(failing.next(), Next::Failed);
    takes(&mut failing, &mut block, "");
    assert_eq!(failing.failures(), 1);
}

#[test]
fn bytes_that_are_not_held() {
    let mut block = [Cell::Comma; 8];
    let mut source = FakeSource::new(b"abc", 0, false);
    takes(&mut source, &mut block, "");
    assert_eq!(source.calls, 0);
    assert_eq!(source.next(), Next::Byte(b'a'));
    let mut reader = ReadSource::new(FakeReader::new(b"abc", usize::MAX, 0));
    takes(&mut reader, &mut block, "");
    assert_eq!(reader.next(), Next::Byte(b'a'));
}

#[test]
fn characters_of_cells() {
    let mut bytes = [b'x'; 3];
    write_characters(&[Cell::Byte(b'a'), Cell::Comma], &mut bytes[..2]);
    assert!(&bytes[..] == b"a\0x".as_slice());
}

#[test]
fn characters_of_a_text() {
    let cells = [Cell::Byte(b'a'), Cell::Byte(b'\xff'), Cell::Byte(b'\0')];
    let text = Characters::new(&cells);
    assert_eq!(text.len(), 3);
    assert_eq!(text.at(1), b'\xff');
    let mut bytes = [b'x'; 3];
    text.write(&mut bytes);
    assert!(&bytes[..] == b"a\xff\0".as_slice());
    text.part(1, 2).write(&mut bytes[..1]);
    assert!(&bytes[..] == b"\xff\xff\0".as_slice());
}

/// Runs over devices that count, and compares the puts, the
/// flushes and the bytes that were asked for.
fn calls(script: &str, puts: u32, flushes: u32, asked: u32) {
    let mut block = [Cell::Byte(0); AMPLE];
    let mut source = FakeSource::new(script.as_bytes(), 0, false);
    let mut sink = FakeSink::new(0, 0);
    let report = Machine::over(&mut block, MANY).run(&mut source, &mut sink);
    let counted = (sink.puts, sink.flushes, source.calls) == (puts, flushes, asked);
    let is_well = source.failures() == 0 && sink.failures() == 0;
    assert!(
        report.fate == Fate::InputEnded && is_well && counted,
        "{script}"
    );
}

#[test]
fn calls_of_devices() {
    calls("", 0, 0, 1);
    calls(HELLO, 5, 1, 13);
    calls("#(ps,hello)'\n", 5, 1, 15);
    calls(LETTERS, 20, 1, 28);
    calls("#(ps,a)#(ps,b)#(ps,c)'", 3, 3, 23);
    calls("#(ps)#(ds,A,b)'", 0, 0, 16);
    calls("##(eq,,,a)'", 1, 1, 12);
}

#[test]
fn calls_of_displays() {
    calls(SHOWN, 8, 1, 29);
    calls("#(pf,none)'", 0, 0, 12);
}

#[test]
fn endless_line() {
    let mut block = [Cell::Byte(0); 100];
    let mut source = FakeSource::new(b"", 1_000_000, false);
    let mut sink = FakeSink::new(0, 0);
    let report = Machine::over(&mut block, MANY).run(&mut source, &mut sink);
    let want = Report {
        fate: Fate::Workspace,
        steps: 8,
        peak: 11,
    };
    assert_eq!(report, want);
    assert_eq!(source.calls, 93);
    assert_eq!((sink.puts, sink.flushes), (0, 0));
}

/// Steps a machine to its end and three times more, when it
/// has to answer the same and to call no device.
fn stays_over(
    mut source: FakeSource<'_>,
    mut sink: FakeSink,
    cells: usize,
    steps: u64,
    fate: Fate,
)
{
    let mut block = [Cell::Byte(0); AMPLE];
    let mut machine = Machine::over(&mut block[..cells.min(AMPLE)], steps);
    let mut ended = None;
    for _ in 0..100 {
        assert!(source.failures() == 0 && sink.failures() == 0);
        ended = machine.step(&mut source, &mut sink);
        if ended.is_some() {
            break;
        }
    }
    assert_eq!(ended, Some(fate));
    let calls = (source.calls, sink.puts, sink.flushes);
    let counted = (machine.steps(), machine.peak());
    for _ in 0..3 {
        assert!(source.failures() <= 1 && sink.failures() <= 1);
        assert_eq!(machine.step(&mut source, &mut sink), Some(fate));
        assert_eq!((source.calls, sink.puts, sink.flushes), calls);
        assert_eq!((machine.steps(), machine.peak()), counted);
    }
}

#[test]
fn runs_whose_input_failed_stay_ended() {
    let text = HELLO.as_bytes();
    for n in 0..=text.len() {
        let source = FakeSource::new(&text[..n], 0, true);
        let sink = FakeSink::new(0, 0);
        stays_over(source, sink, AMPLE, MANY, Fate::InputFailed);
    }
}

#[test]
fn runs_whose_output_failed_stay_ended() {
    for (bad_put, bad_flush) in &[(1, 0), (2, 0), (3, 0), (4, 0), (5, 0), (0, 1)] {
        let source = FakeSource::new(HELLO.as_bytes(), 0, false);
        let sink = FakeSink::new(*bad_put, *bad_flush);
        stays_over(source, sink, AMPLE, MANY, Fate::OutputFailed);
    }
}

const ENDED: [(&str, usize, u64, Fate); 6] = [
    (HELLO, AMPLE, MANY, Fate::InputEnded),
    ("#(hl)'", AMPLE, MANY, Fate::Halted),
    (HELLO, 18, MANY, Fate::Workspace),
    (HELLO, 0, MANY, Fate::Workspace),
    (HELLO, AMPLE, 20, Fate::Steps),
    (HELLO, 0, 0, Fate::Steps),
];

#[test]
fn ended_runs_stay_ended() {
    for (script, cells, steps, fate) in &ENDED {
        let source = FakeSource::new(script.as_bytes(), 0, false);
        stays_over(source, FakeSink::new(0, 0), *cells, *steps, *fate);
    }
}

/// Runs over a reader and a writer, of which one may fail.
fn piped(taken: &mut Vec<u8>, bad_read: u32, bad_write: u32) -> Report {
    let mut block = [Cell::Byte(0); AMPLE];
    let mut source = ReadSource::new(FakeReader::new(HELLO.as_bytes(), usize::MAX, bad_read));
    let mut sink = WriteSink::new(FakeWriter::new(taken, usize::MAX, bad_write));
    let report = Machine::over(&mut block, MANY).run(&mut source, &mut sink);
    assert_eq!(
        source.failures(),
        u64::from(report.fate == Fate::InputFailed)
    );
    assert_eq!(
        sink.failures(),
        u64::from(report.fate == Fate::OutputFailed)
    );
    report
}

fn reported(fate: Fate, steps: u64, peak: u32) -> Report {
    Report { fate, steps, peak }
}

#[test]
fn readers_at_their_ends() -> Result<(), Fail> {
    let rows = &[
        (0, Fate::InputEnded, 29, 19),
        (13, Fate::InputFailed, 28, 19),
    ];
    for (bad_read, fate, steps, peak) in rows {
        let mut taken = Vec::new();
        let report = piped(&mut taken, *bad_read, 0);
        assert!(report == reported(*fate, *steps, *peak));
        assert!(taken.as_slice() == b"hello".as_slice());
    }
    Ok(())
}

#[test]
fn readers_that_fail() -> Result<(), Fail> {
    for k in 1..=12u32 {
        let mut taken = Vec::new();
        let report = piped(&mut taken, k, 0);
        let want = reported(Fate::InputFailed, 8, (7 + k).max(11));
        assert!(report == want && taken.is_empty(), "{k}");
    }
    Ok(())
}

#[test]
fn writers_that_fail() -> Result<(), Fail> {
    for k in 1..=5u32 {
        let mut taken = Vec::new();
        let report = piped(&mut taken, 0, k);
        assert!(report == reported(Fate::OutputFailed, 18, 19), "{k}");
        assert!(taken.as_slice() == &b"hello"[..(k as usize - 1).min(5)]);
    }
    Ok(())
}

#[test]
fn flushes_of_a_writer() {
    let mut flushes = 0;
    let mut sink = WriteSink::new(FlushedWriter {
        flushes: &mut flushes,
        bad_flush: 2,
    });
    assert_eq!(sink.put(b'a'), Ok(()));
    assert_eq!(sink.flush(), Ok(()));
    assert_eq!(sink.put(b'b'), Ok(()));
    assert_eq!(sink.flush(), Err(SinkFailed));
    assert_eq!(sink.failures(), 1);
    assert_eq!(sink.flush(), Ok(()));
    drop(sink);
    assert_eq!(flushes, 3);
}

#[test]
fn text_of_a_sink_failed() -> Result<(), Fail> {
    let text = format!("{SinkFailed}");
    assert!(text.as_str() == "sink failed");
    Ok(())
}
