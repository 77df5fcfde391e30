//! The crate trac-t64 behind the exports of the engine for C, so that one caller can compare the engines. The modules
//! are those of crates/trac_c without their contracts, which rust_library.py adds. The check of a script, steps that are
//! shown and the sources of values are missing: the crate has no part for these.
#![allow(improper_ctypes_definitions, unsafe_op_in_unsafe_fn, unused_imports)]

extern crate trac_t64 as trac_core;
extern crate trac_t64 as trac_devices;
extern crate trac_t64 as trac_image;
extern crate trac_t64 as trac_language;

mod digits;

/// What the exports take of `trac_space`, of which the crate hands on less.
mod cells {
    pub(crate) use trac_t64::{Cell, Mode};

    pub(crate) fn character_of(cell: &Cell) -> u8 {
        match cell {
            Cell::Byte(byte) => *byte,
            _ => 0,
        }
    }
}

/// What the exports take of `trac_checker`: a sink that keeps nothing.
mod checker {
    use trac_t64::{Sink, SinkFailed};

    pub(crate) struct NullSink;

    impl NullSink {
        pub(crate) fn new() -> NullSink {
            NullSink
        }
    }

    impl Sink for NullSink {
        fn put(&mut self, _byte: u8) -> Result<(), SinkFailed> {
            Ok(())
        }

        fn flush(&mut self) -> Result<(), SinkFailed> {
            Ok(())
        }

        fn failures(&self) -> u64 {
            0
        }
    }
}

/// The crate doesn't tell where the value of a call comes from.
mod source {
    pub(crate) fn next_source(_machine: &trac_t64::Machine<'static>, _which: u32) -> usize {
        std::process::abort()
    }
}

/// What the exports take of `trac_lent`: memory, which nothing uses.
mod lent {
    pub(crate) struct Units;

    impl Units {
        pub(crate) unsafe fn from_raw(_place: *mut u128) -> Units {
            Units
        }
    }
}

/// The crate has no check of scripts.
mod check {
    use crate::lent::Units;
    use crate::report::TracReport;
    use trac_t64::Cell;

    pub(crate) fn check_over(
        _block: &mut [Cell],
        _steps: u64,
        _script: &[u8],
        _units: Units,
        _count: usize,
        _to: &mut [u8],
    ) -> TracReport {
        std::process::abort()
    }
}

#[unsafe(no_mangle)]
pub extern "C" fn trac_engine_check() -> ! {
    std::process::abort()
}

/// The crate shows no steps.
#[unsafe(no_mangle)]
pub extern "C" fn trac_engine_trace_step() -> ! {
    std::process::abort()
}
