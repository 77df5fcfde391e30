#![doc = include_str!("../README.md")]
#![cfg_attr(not(test), no_std)]
#![forbid(unsafe_code)]
#![warn(missing_debug_implementations)]
// The README names these, and why.
#![allow(unconditional_panic, clippy::out_of_bounds_indexing)]
#![allow(unused_imports, unused_variables, dead_code)]
#![allow(clippy::style, clippy::complexity, clippy::drop_non_drop)]

#[cfg(feature = "std")]
extern crate std;

// The crates of the engine, as hosts/rust/generate makes modules of them.
mod trac_language;
mod trac_space;
#[path = "trac_values/mod.rs"]
pub mod values;
mod trac_store;
mod trac_forms;
mod trac_devices;
mod trac_functions;
#[path = "trac_laws/mod.rs"]
pub mod laws;
mod trac_core;
mod trac_image;

mod block;
mod shown;

use laws as trac_laws;
use values as trac_values;

pub use block::{BlockTooLong, MOST_CELLS};
pub use trac_core::{
    Awaits, CallMark, Delivery, Machine, Progress, Refused, ScanningRule, display_len, is_layout,
    show_form,
};
#[cfg(feature = "std")]
pub use trac_devices::{
    BufferedReader, BufferedWriter, Input, Output, ReadSource, RetryingReader, RetryingWriter, TRIES, WriteSink,
};
pub use trac_devices::{Characters, Next, Sink, SinkFailed, SliceSink, SliceSource, Source, write_characters};
pub use trac_forms::{Body, Forms, StoredForm, TextBody, Work};
pub use trac_image::{load, save};
pub use trac_language::{
    Concerned, Facts, Fate, Function, Given, Group, Item, Mode, Report, Traits, facts_of, function_at, function_count,
};
pub use trac_space::{Cell, Neutral};

#[cfg(test)]
mod stand_in;
#[cfg(test)]
mod trac_tests;
