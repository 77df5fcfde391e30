// Generated from crates/trac_tests/src/machine.rt by hosts/rust/generate, and never edited.
//! What no clause says: the answers to scripts that were worked by hand, and runs in every room,
//! with every allowance and over devices that fail.

mod failing;
mod rows;

use rows::{DISPLAYED, FORMS, HALTING, PARTS, READ, REPORTS, SCANNED, VALUES};
use crate::stand_in::Fail;
use crate::{Cell, Fate, Machine, Report, SliceSink, SliceSource};
use crate::trac_space::make_block;

const AMPLE: usize = 1000;

const MANY: u64 = 1_000_000;

const DEFAULT: u32 = 65_536;

const OUTPUT: usize = 100;

const HELLO: &str = "#(ps,hello)'";

const LOOP: &str = "#(ds,L,(#(cl,L)))#(cl,L)'";

const LETTERS: &str = "#(ps,abcdefghijklmnopqrst)'";

const DEFINING: &[u8] = b"#(ds,A,b)'";

const SHOWN: &str = "#(ds,F,a-b)#(ss,F,-)#(pf,F)'";

/// What a run came to, and what it wrote; the bytes past that are 0.
#[derive(Clone, Copy, Debug, PartialEq, Eq)]
struct Ended {
    report: Report,
    room: [u8; OUTPUT],
    len: usize,
}

impl Ended {
    fn output(&self) -> &[u8] {
        &self.room[..self.len.min(OUTPUT)]
    }
}

/// Where the source fails, how many bytes the sink takes, and which flush fails.
#[derive(Clone, Copy, Debug)]
struct Faults {
    source: Option<u64>,
    taken: usize,
    flush: Option<u64>,
}

const NO_FAULTS: Faults = Faults {
    source: None,
    taken: OUTPUT,
    flush: None,
};

fn run(script: &[u8], faults: Faults, block: &mut [Cell], steps: u64) -> Ended
{
    let mut room = [0; OUTPUT];
    let mut source = SliceSource::new(script, faults.source);
    let mut sink = SliceSink::new(&mut room[..faults.taken.min(OUTPUT)], faults.flush);
    let report = Machine::over(block, steps).run(&mut source, &mut sink);
    let len = sink.written().len();
    Ended { report, room, len }
}

fn outcome(script: &[u8], cells: usize, steps: u64) -> Ended {
    let mut block = [Cell::Byte(0); AMPLE];
    run(script, NO_FAULTS, &mut block[..cells.min(AMPLE)], steps)
}

fn faulty(script: &[u8], faults: Faults, cells: usize) -> Ended {
    let mut block = [Cell::Byte(0); AMPLE];
    run(script, faults, &mut block[..cells.min(AMPLE)], MANY)
}

fn came_to(got: &Ended, output: &str, fate: Fate, steps: u64, peak: u32) {
    assert!(got.output() == output.as_bytes(), "{output}");
    assert_eq!(got.report, Report { fate, steps, peak });
}

/// Runs each script in ample room; then in each room up to its peak and past it, and with each
/// allowance up to its steps and past them.
fn answer(rows: &[(&str, &str)], fate: Fate) {
    for (script, output) in rows {
        let whole = outcome(script.as_bytes(), AMPLE, MANY);
        assert!(whole.output() == output.as_bytes(), "{script}");
        assert_eq!(whole.report.fate, fate, "{script}");
        sweep(script.as_bytes(), MANY);
    }
}

fn sweep(script: &[u8], allowance: u64) {
    let whole = outcome(script, AMPLE, allowance);
    sweep_rooms(script, allowance, &whole);
    sweep_allowances(script, allowance, &whole);
}

fn sweep_rooms(script: &[u8], allowance: u64, whole: &Ended) {
    for cells in 0..whole.report.peak.saturating_add(3) {
        let got = outcome(script, cells as usize, allowance);
        if cells < whole.report.peak {
            assert_eq!(got.report.fate, Fate::Workspace, "{script:?} {cells}");
            assert!(is_begun(whole, &got), "{script:?} {cells}");
        } else {
            assert!(got == *whole, "{script:?} {cells}");
        }
    }
}

fn sweep_allowances(script: &[u8], allowance: u64, whole: &Ended) {
    for allowed in 0..whole.report.steps.saturating_add(2) {
        let got = outcome(script, AMPLE, allowed);
        if allowed < whole.report.steps {
            let report = (got.report.fate, got.report.steps);
            assert!(report == (Fate::Steps, allowed), "{script:?} {allowed}");
            assert!(is_begun(whole, &got), "{script:?} {allowed}");
        } else if allowed <= allowance {
            assert!(got == *whole, "{script:?} {allowed}");
        }
    }
}

/// Whether what a run wrote is a first part of what another did.
fn is_begun(whole: &Ended, got: &Ended) -> bool {
    whole.output().starts_with(got.output())
}

#[test]
fn scanning() {
    answer(&SCANNED, Fate::InputEnded);
}

#[test]
fn reading_and_halting() {
    answer(&READ, Fate::InputEnded);
    answer(&HALTING, Fate::Halted);
}

#[test]
fn whole_forms() {
    answer(&FORMS, Fate::InputEnded);
}

#[test]
fn parts_of_forms() {
    answer(&PARTS, Fate::InputEnded);
}

#[test]
fn numbers_and_bit_strings() {
    answer(&VALUES, Fate::InputEnded);
}

#[test]
fn displays() {
    answer(&DISPLAYED, Fate::InputEnded);
    let whole = outcome(SHOWN.as_bytes(), AMPLE, MANY);
    came_to(&whole, "<^>a<1>b", Fate::InputEnded, 43, 37);
    let small = outcome(SHOWN.as_bytes(), 36, MANY);
    assert!(small.output().is_empty());
    assert_eq!(
        (small.report.fate, small.report.steps),
        (Fate::Workspace, 18)
    );
    let four = Faults {
        taken: 4,
        ..NO_FAULTS
    };
    let got = faulty(SHOWN.as_bytes(), four, AMPLE);
    came_to(&got, "<^>a", Fate::OutputFailed, 32, 37);
    let flush = Faults {
        flush: Some(1),
        ..NO_FAULTS
    };
    let got = faulty(SHOWN.as_bytes(), flush, AMPLE);
    came_to(&got, "<^>a<1>b", Fate::OutputFailed, 32, 37);
}

#[test]
fn reports() {
    for (script, cells, allowance, output, fate, steps, peak) in &REPORTS {
        let got = outcome(script.as_bytes(), *cells, *allowance);
        came_to(&got, output, *fate, *steps, *peak);
    }
}

#[test]
fn endless_loop() {
    sweep(LOOP.as_bytes(), 300);
}

#[test]
fn each_byte() {
    for byte in 0..=255u8 {
        let got = outcome(&[byte, b'\''], AMPLE, MANY);
        if matches!(byte, b'\t' | b'\n' | b'\r' | b'(' | b')' | b',' | b'\'') {
            assert!(got.output().is_empty(), "{byte}");
        } else {
            assert!(got.output() == [byte].as_slice(), "{byte}");
        }
        assert_eq!(got.report.fate, Fate::InputEnded, "{byte}");
    }
}

#[test]
fn bytes_that_are_no_text() {
    let script = b"\xff\0'";
    let got = outcome(script, AMPLE, MANY);
    assert!(got.output() == b"\xff\0".as_slice());
    let report = Report {
        fate: Fate::InputEnded,
        steps: 21,
        peak: 11,
    };
    assert_eq!(got.report, report);
    sweep(script, MANY);
}

// The rows again, over a block of the size that the program takes by default.
fn answer_in(rows: &[(&str, &str)], block: &mut [Cell])
{
    for (script, output) in rows {
        let got = run(script.as_bytes(), NO_FAULTS, block, MANY);
        assert!(got.output() == output.as_bytes(), "{script}");
        assert!(got == outcome(script.as_bytes(), AMPLE, MANY), "{script}");
    }
}

fn answer_each_in(tables: &[&[(&str, &str)]], block: &mut [Cell])
{
    for rows in tables {
        answer_in(rows, block);
    }
}

fn report_in(block: &mut [Cell])
{
    for (script, cells, allowance, output, fate, steps, peak) in &REPORTS {
        if *cells == AMPLE {
            let got = run(script.as_bytes(), NO_FAULTS, block, *allowance);
            came_to(&got, output, *fate, *steps, *peak);
        }
    }
}

#[test]
fn rows_in_a_block_of_the_default_size() -> Result<(), Fail> {
    let mut block = make_block(DEFAULT)?;
    let tables: [&[(&str, &str)]; 7] = [
        &SCANNED, &READ, &HALTING, &FORMS, &PARTS, &VALUES, &DISPLAYED,
    ];
    answer_each_in(&tables, &mut block);
    Ok(())
}

#[test]
fn reports_in_a_block_of_the_default_size() -> Result<(), Fail> {
    let mut block = make_block(DEFAULT)?;
    report_in(&mut block);
    Ok(())
}

#[test]
fn input_that_stops() {
    let text = HELLO.as_bytes();
    for (n, output) in ["", "#", "", "", "", "", "h", "he", "hel", "hell", "hello"]
        .iter()
        .enumerate()
    {
        let got = outcome(&text[..n.min(text.len())], AMPLE, MANY);
        assert!(got.output() == output.as_bytes(), "{n}");
        assert_eq!(got.report.fate, Fate::InputEnded, "{n}");
    }
}

#[test]
fn rooms_of_a_refusal() {
    for (script, least) in &[(HELLO, 19), ("#(ds,A,b)'", 17)] {
        for cells in 0..*least {
            let got = outcome(script.as_bytes(), cells, MANY);
            let (steps, peak) = if cells < 11 { (0, 0) } else { (8, 11) };
            came_to(&got, "", Fate::Workspace, steps, peak);
        }
        assert_eq!(
            outcome(script.as_bytes(), *least, MANY).report.fate,
            Fate::InputEnded
        );
    }
}

#[test]
fn block_of_other_cells() {
    let mut block = [Cell::Gap(7); 19];
    for _ in 0..2 {
        let got = run(HELLO.as_bytes(), NO_FAULTS, &mut block, MANY);
        came_to(&got, "hello", Fate::InputEnded, 29, 19);
    }
}

#[test]
fn block_after_a_run() {
    let mut block = [Cell::Byte(0); 17];
    let got = run(DEFINING, NO_FAULTS, &mut block, MANY);
    came_to(&got, "", Fate::InputEnded, 27, 17);
    let form = matches!(
        &block[..5],
        [
            Cell::Head(1),
            Cell::Head(1),
            Cell::Head(0),
            Cell::Byte(b'A'),
            Cell::Byte(b'b')
        ]
    );
    assert!(form);
}

// The forms of the run before are gone, however it ended.
#[test]
fn block_after_runs() {
    let mut block = [Cell::Byte(0); 17];
    for (script, output) in &[
        ("#(ln,/)'", ""),
        ("#(cl,A)'", ""),
        ("(unclosed'", ""),
        ("a'", "a"),
    ] {
        run(DEFINING, NO_FAULTS, &mut block, MANY);
        let got = run(script.as_bytes(), NO_FAULTS, &mut block, MANY);
        assert!(got == outcome(script.as_bytes(), 17, MANY), "{script}");
        assert!(got.output() == output.as_bytes(), "{script}");
    }
}
