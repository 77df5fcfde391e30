//! TRAC on a small machine, without std: a script in a static block, and then a session over the serial line, which the
//! machine reads byte by byte. The block is all the memory that the engine has. The session ends at `#(hl)'`.
#![no_std]

use core::ffi::c_int;
use core::panic::PanicInfo;
use trac_t64::{Cell, Fate, Machine, Next, Sink, SinkFailed, SliceSource, Source};

const CELLS: usize = if cfg!(feature = "small") { 64 } else { 256 };

static mut BLOCK: [Cell; CELLS] = [Cell::Byte(0); CELLS];

// What board.c has for the board.
unsafe extern "C" {
    safe fn board_read() -> c_int;
    safe fn board_stack_used() -> usize;
    fn board_write(bytes: *const u8, length: usize);
}

/// The serial line, which never fails and has no end.
struct Line;

impl Source for Line {
    fn next(&mut self) -> Next {
        Next::Byte(board_read() as u8)
    }

    fn failures(&self) -> u64 {
        0
    }
}

impl Sink for Line {
    fn put(&mut self, byte: u8) -> Result<(), SinkFailed> {
        say(&[byte]);
        Ok(())
    }

    fn flush(&mut self) -> Result<(), SinkFailed> {
        Ok(())
    }

    fn failures(&self) -> u64 {
        0
    }
}

fn say(text: &[u8]) {
    // SAFETY: the board reads as many bytes as the text has.
    unsafe { board_write(text.as_ptr(), text.len()) }
}

fn say_number(number: usize) {
    if number > 9 {
        say_number(number / 10);
    }
    say(&[b'0' + (number % 10) as u8]);
}

/// Runs a script at once, in the least room that it needs.
fn greet(block: &mut [Cell]) -> bool {
    let report = Machine::over(block, 29).run(&mut SliceSource::new(b"#(ps,hello)'", None), &mut Line);
    say(b"\n");
    (report.fate, report.steps, report.peak) == (Fate::InputEnded, 29, 19)
}

/// A session: where a string's run ends badly it says how, and the forms stay.
fn converse(block: &mut [Cell]) {
    let mut machine = Machine::over(block, 100_000);
    loop {
        let fate = machine.resume(&mut Line, &mut Line).fate;
        match fate {
            Fate::Halted => return,
            Fate::Workspace => say(b"[workspace]\n"),
            _ => say(b"[steps]\n"),
        }
        machine.again(100_000);
    }
}

#[unsafe(no_mangle)]
extern "C" fn main() -> c_int {
    // SAFETY: the board calls this once, and nothing else names the block.
    let block = unsafe { &mut *&raw mut BLOCK };
    if !greet(&mut block[..19]) {
        return 1;
    }
    converse(block);
    say(b"\nstack ");
    say_number(board_stack_used());
    say(b" bytes\n");
    0
}

#[panic_handler]
fn panic(_: &PanicInfo) -> ! {
    say(b"panic\n");
    loop {}
}
