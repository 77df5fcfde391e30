// Generated from crates/trac_tests/src/buffers.rt by hosts/rust/generate, and never edited.
//! Reading and writing through the buffers of the program's devices.

use crate::trac_tests::fakes::{FakeReader, FakeWriter};
use crate::trac_tests::taking::takes;
use std::io::{Read, Write};
use crate::stand_in::Fail;
use crate::{
    BufferedReader, BufferedWriter, Cell, Characters, Input, Next, Output, Sink, Source, Work,
};

// The bytes 0, 1, .., 250, 0, 1, ..
fn pattern(len: usize) -> Result<Vec<u8>, Fail> {
    let mut text = Vec::new();
    for i in 0..len {
        text.push((i % 251) as u8);
    }
    Ok(text)
}

// Reads by `size` bytes to the end. A failure must come once, where the reader fails, and lose and
// double nothing.
fn reads_all(
    text: &[u8],
    reader: FakeReader<'_>,
    size: usize,
) -> Result<(), Fail> {
    let fails = u32::from(reader.bad_read > 0);
    let mut failures = 0u32;
    let mut buffered = BufferedReader::new(reader);
    let mut buf = vec![0u8; size];
    let mut seen = Vec::new();
    for _ in 0..30_000 {
        match buffered.read(&mut buf) {
            Ok(0) => break,
            Ok(n) => seen.extend_from_slice(&buf[..n]),
            Err(_) => failures = failures.saturating_add(1),
        }
    }
    assert!(seen.as_slice() == text);
    assert_eq!(failures, fails);
    Ok(())
}

#[test]
fn reads_through_the_buffer() -> Result<(), Fail> {
    let rows = [
        (20_000, usize::MAX, 0, 1),
        (20_000, usize::MAX, 2, 1),
        (20_000, 5_000, 0, 3_000),
        (20_000, 8_192, 3, 10_000),
        (10, 3, 1, 1),
        (10, 3, 3, 1),
        (10, 3, 3, 2),
        (10, 1, 11, 4),
        (0, 1, 0, 1),
    ];
    for (len, most, fails_at, size) in rows {
        let text = pattern(len)?;
        let reader = FakeReader::new(&text, most, fails_at);
        reads_all(&text, reader, size)?;
    }
    Ok(())
}

// Writes a text by `size` bytes, and flushes. A failure must come once, where the writer fails,
// and after it all that was given must be written once and in order.
fn writes_all(
    text: &[u8],
    size: usize,
    most: usize,
    fails_at: u32,
) -> Result<(), Fail> {
    let mut taken = Vec::new();
    let mut failures = 0u32;
    let mut buffered = BufferedWriter::new(FakeWriter::new(&mut taken, most, fails_at));
    let mut rest = text;
    for _ in 0..30_000 {
        let part = &rest[..size.min(rest.len())];
        match buffered.write(part) {
            Ok(n) => rest = &rest[n..],
            Err(_) => failures = failures.saturating_add(1),
        }
    }
    if buffered.flush().is_err() {
        failures = failures.saturating_add(1);
        buffered.flush()?;
    }
    assert!(rest.is_empty());
    assert!(taken.as_slice() == text);
    assert_eq!(failures, u32::from(fails_at > 0));
    Ok(())
}

#[test]
fn writes_through_the_buffer() -> Result<(), Fail> {
    let rows = [
        (20_000, 1, usize::MAX, 0),
        (20_000, 1, usize::MAX, 1),
        (20_000, 1, usize::MAX, 3),
        (20_000, 1, 5_000, 2),
        (20_000, 3_000, 5_000, 4),
        (20_000, 10_000, 8_192, 2),
        (10, 1, 3, 1),
        (10, 1, 3, 2),
        (10, 4, 1, 10),
        (0, 1, 1, 0),
    ];
    for (len, size, most, fails_at) in rows {
        let text = pattern(len)?;
        writes_all(&text, size, most, fails_at)?;
    }
    Ok(())
}

#[test]
fn a_write_of_no_byte_is_a_failure() -> Result<(), Fail> {
    let mut taken = Vec::new();
    let mut buffered = BufferedWriter::new(FakeWriter::new(&mut taken, 0, 0));
    assert!(buffered.write(b"a").is_ok());
    assert!(buffered.flush().is_err());
    assert!(buffered.flush().is_err());
    assert!(taken.is_empty());
    Ok(())
}

// The characters of cells, behind bytes.
fn put_held(bytes: &mut Vec<u8>, cells: &[Cell]) -> Result<(), Fail> {
    for cell in cells {
        if let Cell::Byte(byte) = cell {
            bytes.push(*byte);
        }
    }
    Ok(())
}

#[test]
fn reads_in_runs() -> Result<(), Fail> {
    let rows = [
        (20_000, usize::MAX, 0),
        (20_000, 5_000, 3),
        (10, 3, 1),
        (0, 1, 0),
    ];
    for (len, most, fails_at) in rows {
        let text = pattern(len)?;
        let mut source = Input::new(FakeReader::new(&text, most, fails_at));
        let mut seen = Vec::new();
        let mut block = [Cell::Comma; 100];
        takes(&mut source, &mut block, "");
        for _ in 0..30_000 {
            let mut work = Work::over(&mut block);
            source.take_held(b'\'', &mut work);
            put_held(&mut seen, work.neutral_part(0, work.neutral_len()))?;
            assert!(source.failures() <= 1);
            match source.next() {
                Next::Byte(byte) => seen.push(byte),
                Next::End => break,
                Next::Failed => {}
            }
        }
        assert!(seen == text);
        assert_eq!(source.failures(), u64::from(fails_at > 0));
        takes(&mut source, &mut block, "");
    }
    Ok(())
}

#[test]
fn takes_what_is_held() {
    let mut source = Input::new(FakeReader::new(b"xabcde'fg", usize::MAX, 2));
    let mut block = [Cell::Comma; 8];
    takes(&mut source, &mut block, "");
    assert_eq!(source.next(), Next::Byte(b'x'));
    takes(&mut source, &mut block[..3], "abc");
    takes(&mut source, &mut block, "de");
    takes(&mut source, &mut block, "");
    assert_eq!(source.next(), Next::Byte(b'\''));
    takes(&mut source, &mut block, "fg");
    assert_eq!(source.next(), Next::Failed);
    takes(&mut source, &mut block, "");
    assert_eq!(source.next(), Next::End);
    assert_eq!(source.failures(), 1);
}

#[test]
fn writes_in_runs() -> Result<(), Fail> {
    let text = pattern(20_000)?;
    let mut cells = Vec::new();
    for byte in &text {
        cells.push(Cell::Byte(*byte));
    }
    for (most, fails_at, kept) in [(5_000, 0, 20_000), (5_000, 2, 8_192)] {
        let mut taken = Vec::new();
        let mut sink = Output::new(FakeWriter::new(&mut taken, most, fails_at));
        assert_eq!(
            sink.put_all(&Characters::new(&cells)).is_ok(),
            fails_at == 0
        );
        assert_eq!(sink.failures(), u64::from(fails_at > 0));
        assert!(sink.flush().is_ok());
        assert!(taken.as_slice() == &text[..kept.min(text.len())]);
    }
    Ok(())
}
