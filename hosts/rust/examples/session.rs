//! Keeps the forms of one script for the next, and takes the input in pieces, as a serial line gives it.
use trac_t64::{Awaits, Cell, Fate, Machine, Sink, SliceSink, SliceSource, show_form};

/// A machine, and the input that it hasn't read yet.
struct Session<'a> {
    machine: Machine<'a>,
    waiting: Vec<u8>,
}

impl Session<'_> {
    /// Goes on with more input, until the next step needs more than there is: then it answers `None`.
    fn feed(&mut self, piece: &[u8], sink: &mut impl Sink) -> Option<Fate> {
        self.waiting.extend_from_slice(piece);
        loop {
            self.machine.advance(u64::MAX);
            if self.lacks_input() {
                return None;
            }
            let mut source = SliceSource::new(&self.waiting, None);
            let fate = self.machine.step(&mut source, sink);
            let read = self.waiting.len() - source.rest().len();
            self.waiting.drain(..read);
            if fate.is_some() {
                return fate;
            }
        }
    }

    /// Whether the next step reads more than what waits. A string too long for the workspace ends the run.
    fn lacks_input(&self) -> bool {
        let free = (self.machine.room() - self.machine.size()) as usize;
        match self.machine.awaits() {
            Awaits::Nothing => false,
            Awaits::Text => !self.waiting.contains(&self.machine.meta()) && self.waiting.len() <= free + 1,
            Awaits::Byte => self.waiting.is_empty(),
        }
    }
}

fn main() {
    let mut block = [Cell::Byte(0); 256];
    let mut printed = [0; 256];
    let mut sink = SliceSink::new(&mut printed, None);
    let mut session = Session { machine: Machine::over(&mut block, 10_000), waiting: Vec::new() };
    for piece in b"#(ds,greet,(#(ps,(Hello, )NAME!(\n))))#(ss,greet,NAME)'#(cl,greet,Ada)'".chunks(5) {
        assert_eq!(session.feed(piece, &mut sink), None);
    }
    session.machine.again(10_000);
    assert_eq!(session.feed(b"#(cl,greet,Grace)#(hl)'", &mut sink), Some(Fate::Halted));
    for form in session.machine.forms() {
        show_form(&form, &mut sink).expect("room for the form");
    }
    println!("{}", String::from_utf8_lossy(sink.written()));
}
