// Generated from crates/trac_tests/src/session.rt by hosts/rust/generate, and never edited.
//! Machines that are used again, fed in pieces and looked at: what their answers are on scripts that
//! were worked by hand.

use crate::{
    Awaits, Cell, Fate, Item, Machine, Report, Sink, SliceSink, SliceSource, Source, StoredForm,
    display_len, show_form,
};

const DEFINES: &[u8] = b"#(ds,F,a-b)#(ss,F,-)#(cm,;)'";

/// Runs a machine over these bytes, from where it stands, and wants this printed.
fn resumed(machine: &mut Machine, script: &[u8], printed: &[u8]) -> Report {
    let mut room = [0; 64];
    let mut source = SliceSource::new(script, None);
    let mut sink = SliceSink::new(&mut room, None);
    let report = machine.resume(&mut source, &mut sink);
    assert!(sink.written() == printed);
    report
}

#[test]
fn forms_and_meta_outlive_a_run() {
    let mut block = [Cell::Byte(0); 60];
    let mut machine = Machine::over(&mut block, 1000);
    assert_eq!(machine.meta(), b'\'');
    let first = resumed(&mut machine, DEFINES, b"");
    assert_eq!(first.fate, Fate::InputEnded);
    assert_eq!(machine.meta(), b';');
    machine.again(500);
    assert!(machine.active().is_empty() && machine.neutral().is_empty());
    assert_eq!((machine.steps(), machine.peak()), (0, 0));
    let second = resumed(&mut machine, b"#(ps,#(cl,F,+));", b"a+b");
    assert_eq!(second.fate, Fate::InputEnded);
    assert!(second.steps < first.steps && second.peak < first.peak);
}

#[test]
fn a_machine_goes_on_after_each_fault() {
    let mut block = [Cell::Byte(0); 30];
    let mut machine = Machine::over(&mut block, 1000);
    let full = resumed(&mut machine, b"#(ds,A,12345678901234567890)'", b"");
    assert_eq!(full.fate, Fate::Workspace);
    let over = resumed(&mut machine, b"#(ps,x)'", b"");
    assert_eq!(over, full);
    machine.again(12);
    let spent = resumed(&mut machine, b"#(ps,x)'", b"");
    assert_eq!((spent.fate, spent.steps), (Fate::Steps, 12));
    machine.again(100);
    let hello = resumed(&mut machine, b"#(ps,hello)'", b"hello");
    let report = Report {
        fate: Fate::InputEnded,
        steps: 29,
        peak: 19,
    };
    assert_eq!(hello, report);
}

#[test]
fn a_run_begun_by_steps_ends_as_one_at_once() {
    let mut block = [Cell::Byte(0); 30];
    let mut source = SliceSource::new(b"#(ps,hello)'", None);
    let mut room = [0; 20];
    let mut sink = SliceSink::new(&mut room, None);
    let mut machine = Machine::over(&mut block, 29);
    for _ in 0..20 {
        assert!(source.failures() == 0 && sink.failures() == 0);
        assert_eq!(machine.step(&mut source, &mut sink), None);
    }
    assert!(source.failures() == 0 && sink.failures() == 0);
    let report = machine.resume(&mut source, &mut sink);
    assert_eq!(
        (report.fate, report.steps, report.peak),
        (Fate::InputEnded, 29, 19)
    );
    assert!(sink.written() == b"hello".as_slice());
}

#[test]
fn what_the_next_step_reads() {
    let mut block = [Cell::Byte(0); 40];
    let mut source = SliceSource::new(b"#(rc)'x", None);
    let mut room = [0; 1];
    let mut sink = SliceSink::new(&mut room, None);
    let mut machine = Machine::over(&mut block, 17);
    let mut seen = [Awaits::Nothing; 18];
    for k in 0..18 {
        seen[k] = machine.awaits();
        assert!(source.failures() == 0 && sink.failures() == 0);
        let _ = machine.step(&mut source, &mut sink);
    }
    for k in 0..18 {
        let wanted = match k {
            8 => Awaits::Text,
            12 => Awaits::Byte,
            _ => Awaits::Nothing,
        };
        assert_eq!(seen[k], wanted, "{k}");
    }
}

#[test]
fn nothing_is_read_past_the_allowance() {
    let mut block = [Cell::Byte(0); 40];
    let mut source = SliceSource::new(b"", None);
    let mut sink = SliceSink::new(&mut [], None);
    let mut machine = Machine::over(&mut block, 8);
    for _ in 0..8 {
        assert!(source.failures() == 0 && sink.failures() == 0);
        let _ = machine.step(&mut source, &mut sink);
    }
    assert_eq!(machine.awaits(), Awaits::Nothing);
}

/// The form of the null name, of one character.
fn is_null_form(form: &StoredForm) -> bool {
    form.name().is_empty()
        && (form.body_len(), form.pointer()) == (1, 0)
        && matches!(form.item(0), Some(Item::Byte(b'x')))
        && form.item(1).is_none()
}

/// The form AB, which has two gaps of the first kind and one of the second.
fn is_segmented_form(form: &StoredForm) -> bool {
    matches!(form.name(), [Cell::Byte(b'A'), Cell::Byte(b'B')])
        && (form.body_len(), form.pointer()) == (4, 1)
        && matches!(form.item(0), Some(Item::Byte(b'p')))
        && matches!(form.item(1), Some(Item::Gap(1)))
        && matches!(form.item(2), Some(Item::Gap(2)))
        && matches!(form.item(3), Some(Item::Gap(1)))
}

#[test]
fn forms_are_listed() {
    let mut block = [Cell::Byte(0); 60];
    let mut machine = Machine::over(&mut block, 1000);
    let script = b"#(ds,,x)#(ds,AB,p-q-)#(ss,AB,-,q)#(cc,AB)'";
    let _ = resumed(&mut machine, script, b"p");
    let mut forms = machine.forms();
    assert_eq!(forms.len(), 2);
    let Some(null) = forms.next() else {
        panic!("no form");
    };
    assert!(is_null_form(&null));
    let Some(form) = forms.next() else {
        panic!("one form");
    };
    assert!(is_segmented_form(&form));
    assert!(forms.next().is_none());
}

#[test]
fn a_form_is_shown() {
    let mut block = [Cell::Byte(0); 60];
    let mut machine = Machine::over(&mut block, 1000);
    let script = b"#(ds,A,p-q)#(ss,A,-,q)#(cc,A)#(pf,A)'";
    let _ = resumed(&mut machine, script, b"p<^><1><2>p");
    let mut forms = machine.forms();
    let Some(form) = forms.next() else {
        panic!("no form");
    };
    assert_eq!(display_len(&form), 10);
    let mut room = [0; 12];
    let mut sink = SliceSink::new(&mut room, None);
    assert!(show_form(&form, &mut sink).is_ok());
    assert!(sink.written() == b"p<^><1><2>".as_slice());
    let mut little = [0; 6];
    let mut full = SliceSink::new(&mut little, None);
    assert!(show_form(&form, &mut full).is_err());
    assert!(full.written() == b"p<^><1".as_slice());
}

// The form that a script defines and displays, shown in buffers of each length up to that of its display.
fn shows(script: &[u8], shown: &[u8]) {
    let mut block = [Cell::Byte(0); 200];
    let mut machine = Machine::over(&mut block, 1000);
    let _ = resumed(&mut machine, script, shown);
    let mut forms = machine.forms();
    let Some(form) = forms.next() else {
        panic!("no form");
    };
    assert_eq!(display_len(&form) as usize, shown.len());
    let mut room = [0; 64];
    assert!(shown.len() <= room.len());
    for len in 0..=shown.len() {
        let mut sink = SliceSink::new(&mut room[..len], None);
        assert_eq!(show_form(&form, &mut sink).is_ok(), len == shown.len());
        assert!(sink.written() == &shown[..len]);
    }
}

#[test]
fn forms_are_shown_in_runs() {
    shows(b"#(ds,A)#(pf,A)'", b"<^>");
    shows(b"#(ds,A,hello)#(pf,A)'", b"<^>hello");
    shows(
        b"#(ds,A,a run of more than thirty-two characters)#(pf,A)'",
        b"<^>a run of more than thirty-two characters",
    );
    shows(b"#(ds,A,-ab)#(ss,A,-)#(pf,A)'", b"<^><1>ab");
    shows(b"#(ds,A,ab-)#(ss,A,-)#(pf,A)'", b"<^>ab<1>");
    shows(b"#(ds,A,a--b)#(ss,A,-)#(pf,A)'", b"<^>a<1><1>b");
    shows(b"#(ds,A,-)#(ss,A,,,,,,,,,,-)#(pf,A)'", b"<^><10>");
    shows(b"#(ds,A,abcd)#(ds,B,#(cn,A,2))#(pf,A)'", b"ab<^>cd");
    shows(
        b"#(ds,A,ab-cd)#(ss,A,-)#(ds,B,#(cn,A,2))#(pf,A)'",
        b"ab<^><1>cd",
    );
    shows(
        b"#(ds,A,ab-cd)#(ss,A,-)#(ds,B,#(cs,A))#(pf,A)'",
        b"ab<1><^>cd",
    );
    shows(b"#(ds,A,ab)#(ds,B,#(cn,A,5))#(pf,A)'", b"ab<^>");
}

/// What a run came to, and how many bytes it printed.
struct Printed {
    report: Report,
    len: usize,
}

/// Runs a script; what it prints stands then at the front of the caller's own buffer.
fn print_to(block: &mut [Cell], script: &[u8], output: &mut [u8]) -> Printed
{
    let mut source = SliceSource::new(script, None);
    let mut sink = SliceSink::new(output, None);
    let report = Machine::over(block, 1000).run(&mut source, &mut sink);
    let len = sink.written().len();
    Printed { report, len }
}

#[test]
fn a_buffer_of_the_caller() {
    let mut block = [Cell::Byte(0); 64];
    let mut output = [0; 8];
    let printed = print_to(&mut block, b"#(ps,hello)'", &mut output);
    assert_eq!((printed.report.fate, printed.len), (Fate::InputEnded, 5));
    assert!(output == *b"hello\0\0\0");
}

/// How many bytes the next step prints.
fn next_printed(machine: &mut Machine) -> usize {
    let function = machine.next_function();
    machine.prints_past(function, 0).unwrap_or(0) as usize
}

/// Makes steps to the end of the script, each after what it prints was told: what is told in all is
/// what is printed.
fn told_bytes(script: &[u8], printed: &[u8]) {
    let mut block = [Cell::Byte(0); 60];
    let mut source = SliceSource::new(script, None);
    let mut room = [0; 20];
    let mut sink = SliceSink::new(&mut room, None);
    let mut machine = Machine::over(&mut block, 200);
    for _ in 0..200 {
        let told = next_printed(&mut machine);
        let before = sink.written().len();
        assert!(source.failures() == 0 && sink.failures() == 0);
        let _ = machine.step(&mut source, &mut sink);
        assert!(sink.written().len().checked_sub(before) == Some(told));
    }
    assert!(sink.written() == printed);
    assert_eq!(next_printed(&mut machine), 0);
}

#[test]
fn what_the_next_step_prints() {
    told_bytes(b"#(ps,hello)'", b"hello");
    told_bytes(b"#(ds,F,a-b)#(ss,F,-)#(pf,F)'", b"<^>a<1>b");
    told_bytes(b"#(pf,G)#(xy)(,)'#(ps)'", b",");
}
