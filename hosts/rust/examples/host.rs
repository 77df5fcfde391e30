//! Gives a script a function of the program's own, `sensor`, and a form.
use trac_t64::{Cell, Delivery, Fate, Machine, SliceSink, SliceSource};

/// The characters of an argument of the call that waits for its value.
fn argument(machine: &Machine, which: u32) -> Vec<u8> {
    let cells = machine.argument(which).unwrap_or(&[]);
    cells.iter().map(|cell| if let Cell::Byte(byte) = cell { *byte } else { 0 }).collect()
}

/// What a call of no function of the language gives here.
fn value(machine: &Machine) -> &'static [u8] {
    match (&argument(machine, 0)[..], &argument(machine, 1)[..]) {
        (b"sensor", b"indoors") => b"21",
        (b"sensor", _) => b"4",
        _ => b"",
    }
}

fn main() {
    let mut block = [Cell::Byte(0); 256];
    let mut printed = [0; 64];
    let mut sink = SliceSink::new(&mut printed, None);
    let mut source = SliceSource::new(b"#(ps,#(cl,greet,indoors))'", None);
    let mut machine = Machine::over(&mut block, 10_000);
    machine.define_text(b"greet", b"It is #(sensor,indoors) degrees.").expect("room for the form");
    machine.stop_at_unknown(true);
    let fate = loop {
        machine.advance(u64::MAX);
        if machine.asks() {
            let value = value(&machine);
            machine.answer(value, Delivery::Unscanned).expect("a call that waits");
        } else if let Some(fate) = machine.step(&mut source, &mut sink) {
            break fate;
        }
    };
    assert_eq!(fate, Fate::InputEnded);
    println!("{}", String::from_utf8_lossy(sink.written()));
}
