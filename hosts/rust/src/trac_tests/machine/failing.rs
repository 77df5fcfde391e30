// Generated from crates/trac_tests/src/machine/failing.rt by hosts/rust/generate, and never edited.
//! Runs over a source or a sink over memory that fails where it is told to.
use super::{AMPLE, Faults, HELLO, LETTERS, NO_FAULTS, came_to, faulty};
use crate::Fate;

#[test]
fn sources_that_fail() {
    for place in 0..12u32 {
        let fails = Faults {
            source: Some(u64::from(place)),
            ..NO_FAULTS
        };
        let got = faulty(HELLO.as_bytes(), fails, AMPLE);
        came_to(&got, "", Fate::InputFailed, 8, (8 + place).max(11));
    }
    let rows = &[
        (HELLO, 12, AMPLE, "hello", Fate::InputFailed, 28, 19),
        (HELLO, 13, AMPLE, "hello", Fate::InputEnded, 29, 19),
        ("#(p", 3, AMPLE, "", Fate::InputFailed, 8, 11),
        ("#(p", 3, 11, "", Fate::InputFailed, 8, 11),
        ("#(ps", 4, 11, "", Fate::Workspace, 8, 11),
        ("#(ps", 4, 12, "", Fate::InputFailed, 8, 12),
    ];
    for (script, place, cells, output, fate, steps, peak) in rows {
        let fails = Faults {
            source: Some(*place),
            ..NO_FAULTS
        };
        let got = faulty(script.as_bytes(), fails, *cells);
        came_to(&got, output, *fate, *steps, *peak);
    }
}

#[test]
fn sinks_that_fail() {
    for (taken, output) in ["", "h", "he", "hel", "hell"].iter().enumerate() {
        let full = Faults { taken, ..NO_FAULTS };
        let got = faulty(HELLO.as_bytes(), full, AMPLE);
        came_to(&got, output, Fate::OutputFailed, 18, 19);
    }
}

#[test]
fn sinks_that_are_never_asked_to_fail() {
    let faults = [
        Faults {
            taken: 5,
            ..NO_FAULTS
        },
        Faults {
            flush: Some(2),
            ..NO_FAULTS
        },
    ];
    for faults in faults {
        let got = faulty(HELLO.as_bytes(), faults, AMPLE);
        came_to(&got, "hello", Fate::InputEnded, 29, 19);
    }
}

#[test]
fn flushes_that_fail() {
    let rows = &[
        (HELLO, 5, None, "hello", Fate::InputEnded),
        (HELLO, 5, Some(0), "hello", Fate::InputEnded),
        (HELLO, 5, Some(1), "hello", Fate::OutputFailed),
        (HELLO, 5, Some(2), "hello", Fate::InputEnded),
        (
            "#(ps,a)#(ps,b)#(ps,c)'",
            5,
            Some(2),
            "ab",
            Fate::OutputFailed,
        ),
        (LETTERS, 17, None, "abcdefghijklmnopq", Fate::OutputFailed),
        (LETTERS, 20, None, "abcdefghijklmnopqrst", Fate::InputEnded),
    ];
    for (script, taken, flush, output, fate) in rows {
        let faults = Faults {
            source: None,
            taken: *taken,
            flush: *flush,
        };
        let got = faulty(script.as_bytes(), faults, AMPLE);
        assert!(got.output() == output.as_bytes(), "{script}");
        assert_eq!(got.report.fate, *fate, "{script}");
    }
    let flush = Faults {
        flush: Some(1),
        ..NO_FAULTS
    };
    came_to(
        &faulty(HELLO.as_bytes(), flush, AMPLE),
        "hello",
        Fate::OutputFailed,
        18,
        19,
    );
}
