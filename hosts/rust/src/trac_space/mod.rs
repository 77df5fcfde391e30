// Generated from crates/trac_space/src/lib.rt by hosts/rust/generate, and never edited.
//! Three lists of cells in one lent block: a store, a neutral string and an active string.
//!
//! The active string and the neutral string are those of Mooers, "TRAC, A Procedure-Describing
//! Language for the Reactive Typewriter", CACM 9(3), 1966; the comments here also call them active and
//! neutral. That they share one block with the store, and are counted in cells, is this processor's own
//! choice. Only `make_block` takes memory.

mod block;
mod byte_search;
mod byte_writing;
mod cell;
mod character_runs;
mod copies;
mod filling;
mod neutral;
mod part;
mod space;
mod tags;

#[cfg(test)]
pub use crate::stand_in::make_block;
pub use cell::{Cell, are_characters, byte_in, character_of, is_character};
pub use character_runs::characters_from;
pub use neutral::Neutral;
pub use part::Part;
pub use space::Space;
pub use tags::{tag_or_zero, tagged, untagged_cell};
pub use crate::trac_language::Mode;
