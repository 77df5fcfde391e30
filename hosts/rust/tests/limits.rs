//! Blocks and allowances at the ends of their ranges and past them, and what errors and machines are as text.
use trac_t64::{BlockTooLong, Cell, Fate, MOST_CELLS, Machine, SinkFailed, SliceSink, SliceSource};

const HELLO: &[u8] = b"#(ps,hello)'";

/// The fate, the steps and the peak of a run, and what it prints.
fn ran(mut machine: Machine) -> (Fate, u64, u32, Vec<u8>) {
    let mut printed = [0; 9];
    let mut sink = SliceSink::new(&mut printed, None);
    let report = machine.resume(&mut SliceSource::new(HELLO, None), &mut sink);
    (report.fate, report.steps, report.peak, sink.written().to_vec())
}

#[test]
fn a_block_that_is_too_long_is_refused_and_stays() {
    let mut block = vec![Cell::Gap(7); MOST_CELLS + 1];
    assert_eq!(Machine::try_over(&mut block, 1).err(), Some(BlockTooLong));
    assert!(block.iter().all(|cell| matches!(cell, Cell::Gap(7))));
    let machine = Machine::try_over(&mut block[..MOST_CELLS], 1000).expect("a block in range");
    assert_eq!(ran(machine), (Fate::InputEnded, 29, 19, b"hello".to_vec()));
}

#[test]
fn the_least_block_and_allowance() {
    for cells in 0..11 {
        let mut block = vec![Cell::Byte(0); cells];
        let machine = Machine::try_over(&mut block, u64::MAX).expect("a block in range");
        assert_eq!(ran(machine), (Fate::Workspace, 0, 0, Vec::new()));
    }
    let mut block = [Cell::Byte(0); 18];
    assert_eq!(ran(Machine::over(&mut block, u64::MAX)), (Fate::Workspace, 8, 11, Vec::new()));
    assert_eq!(ran(Machine::over(&mut block, 0)), (Fate::Steps, 0, 0, Vec::new()));
}

#[test]
fn the_greatest_allowance() {
    let mut block = [Cell::Byte(0); 19];
    let mut machine = Machine::over(&mut block, 1);
    machine.again(u64::MAX);
    assert_eq!(machine.advance(u64::MAX).done, 8);
    assert_eq!(ran(machine), (Fate::InputEnded, 29, 19, b"hello".to_vec()));
}

#[test]
fn places_past_the_end_have_nothing() {
    let mut block = [Cell::Byte(0); 64];
    let mut machine = Machine::over(&mut block, 1000);
    let mut sink = SliceSink::new(&mut [], None);
    let _ = machine.resume(&mut SliceSource::new(b"#(ds,A,b)'#(ps,", None), &mut sink);
    machine.again(1000);
    machine.turn_to_form(u32::MAX);
    assert!(machine.form(1).is_none() && machine.form(u32::MAX).is_none());
    assert!(machine.form(0).is_some_and(|form| form.item(0).is_some() && form.item(u32::MAX).is_none()));
    assert!(machine.form_named(&[]).is_none() && machine.form_named(&[Cell::Byte(b'A')]).is_some());
    assert_eq!((machine.call_mark(0), machine.call_mark(u32::MAX)), (None, None));
    assert_eq!((machine.mark_around(None), machine.mark_around(Some(u32::MAX))), (None, None));
    let function = machine.next_function();
    assert!(function.is_none() && machine.argument(0).is_none());
    assert_eq!((machine.argument_count(), machine.prints_past(function, 0)), (0, None));
    assert_eq!((machine.steps_to_call(u64::MAX), machine.takes()), (0, 0));
    assert_eq!((machine.steps(), machine.peak(), machine.size()), (0, 0, 5));
}

#[test]
fn errors_and_machines_as_text() {
    let errors: [&dyn core::error::Error; 2] = [&SinkFailed, &BlockTooLong];
    let texts: Vec<String> = errors.iter().map(|error| error.to_string()).collect();
    assert_eq!(texts, ["sink failed", "block of more than 16777216 cells"]);
    let mut block = [Cell::Byte(0); 20];
    let mut machine = Machine::over(&mut block, 1000);
    let _ = machine.step(&mut SliceSource::new(HELLO, None), &mut SliceSink::new(&mut [], None));
    assert_eq!(format!("{machine:?}"), "Machine { room: 20, size: 11, steps: 1, peak: 11, report: None, .. }");
}
