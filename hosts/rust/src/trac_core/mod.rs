// Generated from crates/trac_core/src/lib.rt by hosts/rust/generate, and never edited.
//! The machine: the scanner, the calls that read and print, steps and runs. All that stands below
//! it and that a caller needs has its name here too.

mod call;
mod delivery;
mod display;
mod idling;
mod input_output;
mod long_runs;
mod machine;
mod outcome;
mod performer;
mod read_in_place;
mod rules;
mod runs;
mod scan;
mod streaming;

pub use display::{display_len, show_form};
pub use machine::{Awaits, CallMark, Delivery, Machine, Progress, Refused};
pub use rules::ScanningRule;
pub use runs::is_layout;
