// Generated from crates/trac_tests/src/view.rt by hosts/rust/generate, and never edited.
//! What a machine shows of itself from step to step.
use crate::{
    Cell, Fate, Function, Machine, ScanningRule, Sink, SliceSink, SliceSource, Source,
};

/// Of each step of a run over no input its rule, the size before it and its need.
const STEPS: [(ScanningRule, u32, u32); 9] = [
    (ScanningRule::Idling, 0, 11),
    (ScanningRule::ActiveCall, 11, 11),
    (ScanningRule::Character, 10, 10),
    (ScanningRule::Character, 10, 10),
    (ScanningRule::Argument, 10, 10),
    (ScanningRule::ActiveCall, 10, 10),
    (ScanningRule::Character, 9, 9),
    (ScanningRule::Character, 9, 9),
    (ScanningRule::EndOfCall, 9, 8),
];

#[test]
fn a_run_over_no_input() {
    let mut block = [Cell::Byte(0); 20];
    let mut source = SliceSource::new(b"", None);
    let mut sink = SliceSink::new(&mut [], None);
    let mut machine = Machine::over(&mut block, 100);
    assert_eq!(machine.room(), 20);
    let mut left = STEPS.len();
    for (rule, size, need) in &STEPS {
        let is_before = machine.next_rule() == *rule && machine.size() == *size;
        assert!(source.failures() == 0 && sink.failures() == 0);
        left = left.saturating_sub(1);
        let is_last = machine.step(&mut source, &mut sink).is_some();
        let is_behind = is_last == (left == 0) && machine.take_peak() == *need;
        assert!(is_before && is_behind, "{left}");
    }
    assert_eq!(machine.peak(), 0);
    assert!(source.failures() == 0 && sink.failures() == 0);
    assert_eq!(
        machine.step(&mut source, &mut sink),
        Some(Fate::InputEnded)
    );
}

#[test]
fn the_two_strings() {
    let mut block = [Cell::Byte(0); 20];
    let mut source = SliceSource::new(b"", None);
    let mut sink = SliceSink::new(&mut [], None);
    let mut machine = Machine::over(&mut block, 100);
    for _ in 0..6 {
        assert!(source.failures() == 0 && sink.failures() == 0);
        let _ = machine.step(&mut source, &mut sink);
    }
    assert!(
        matches!(
            machine.active(),
            [
                Cell::Byte(b'r'),
                Cell::Byte(b's'),
                Cell::Byte(b')'),
                Cell::Byte(b')')
            ]
        )
    );
    assert!(
        matches!(
            machine.neutral(),
            [
                Cell::Call(_, _),
                Cell::Byte(b'p'),
                Cell::Byte(b's'),
                Cell::Comma,
                Cell::Call(_, _)
            ]
        )
    );
    // the marks of the two calls stand at the places 4 and 0
    assert_eq!(machine.mark_around(None), Some(4));
    assert_eq!(machine.mark_around(Some(4)), Some(0));
    assert_eq!(machine.mark_around(Some(0)), None);
    assert_eq!(machine.mark_around(Some(1)), None);
}

/// The call that the next step performs.
#[derive(Clone, Copy, Debug)]
struct NextCall {
    /// The function that it names.
    function: Option<Function>,
    /// How many arguments stand behind its name.
    arguments: u32,
    /// How many calls are open around it.
    depth: u32,
}

/// The call that the next step performs, if it performs one.
fn next_call(machine: &Machine) -> Option<NextCall> {
    let arguments = machine.argument_count().checked_sub(1)?;
    Some(NextCall {
        function: machine.next_function(),
        arguments,
        depth: calls_around(machine, machine.mark_around(None)),
    })
}

/// How many calls are open around the one whose mark stands at a place.
fn calls_around(machine: &Machine, mut mark: Option<u32>) -> u32 {
    let mut count: u32 = 0;
    for _ in machine.neutral() {
        mark = machine.mark_around(mark);
        if mark.is_none() {
            break;
        }
        count = count.saturating_add(1);
    }
    count
}

/// Makes steps up to this number of steps since the run began, and gives the call that comes next.
fn call_after(
    machine: &mut Machine,
    source: &mut SliceSource,
    sink: &mut SliceSink,
    steps: u64,
) -> Option<NextCall> {
    for _ in machine.steps()..steps {
        assert!(source.failures() == 0 && sink.failures() == 0);
        let _ = machine.step(source, sink);
    }
    next_call(machine)
}

#[test]
fn the_call_that_comes_next() {
    let mut block = [Cell::Byte(0); 60];
    let mut source = SliceSource::new(b"##(eq,a,,b)#(zz)'", None);
    let mut sink = SliceSink::new(&mut [], None);
    let mut machine = Machine::over(&mut block, 23);
    for k in 0..24 {
        let call = call_after(&mut machine, &mut source, &mut sink, k);
        let is_wanted = match k {
            8 => is_call_of_read_string(&call),
            17 => is_call_of_equal(&call),
            21 => is_call_of_no_function(&call),
            22 => is_call_of_print_string(&call),
            _ => call.is_none(),
        };
        assert!(is_wanted, "{k}");
    }
}

/// A call of `rs` with no argument, in another.
fn is_call_of_read_string(call: &Option<NextCall>) -> bool {
    matches!(
        call,
        Some(NextCall {
            function: Some(Function::ReadString),
            arguments: 0,
            depth: 1,
        })
    )
}

/// A call of `eq` with three arguments, in another.
fn is_call_of_equal(call: &Option<NextCall>) -> bool {
    matches!(
        call,
        Some(NextCall {
            function: Some(Function::Equal),
            arguments: 3,
            depth: 1,
        })
    )
}

/// A call with a name that no function has and no argument, in another.
fn is_call_of_no_function(call: &Option<NextCall>) -> bool {
    matches!(
        call,
        Some(NextCall {
            function: None,
            arguments: 0,
            depth: 1,
        })
    )
}

/// A call of `ps` with one argument, in no other.
fn is_call_of_print_string(call: &Option<NextCall>) -> bool {
    matches!(
        call,
        Some(NextCall {
            function: Some(Function::PrintString),
            arguments: 1,
            depth: 0,
        })
    )
}

#[test]
fn no_call_comes_next() {
    let mut block = [Cell::Byte(0); 60];
    let mut source = SliceSource::new(b")'", None);
    let mut sink = SliceSink::new(&mut [], None);
    let mut machine = Machine::over(&mut block, 12);
    let closing = call_after(&mut machine, &mut source, &mut sink, 9);
    assert!(is_call_of_print_string(&closing));
    // a right parenthesis is left over, and no call is open
    let stray = call_after(&mut machine, &mut source, &mut sink, 10);
    assert!(stray.is_none() && machine.next_rule() == ScanningRule::EndOfCall);
    // the allowance is used up before the call of `rs`
    machine.again(8);
    let spent = call_after(&mut machine, &mut source, &mut sink, 8);
    assert!(spent.is_none() && machine.report().is_none());
    assert_eq!(machine.next_rule(), ScanningRule::EndOfCall);
    // the run is over at the end of the input
    machine.again(100);
    let ended = call_after(&mut machine, &mut source, &mut sink, 10);
    assert!(ended.is_none() && machine.report().is_some());
}
