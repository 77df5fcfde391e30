// Generated from crates/trac_forms/src/lib.rt by hosts/rust/generate, and never edited.
//! Forms, a neutral string and an active string in one lent block.
//!
//! The store of the block holds the forms, one behind the other, and nothing else; the index area holds an
//! index of them, or nothing. `Work` keeps that this is so.
//!
//! Forms, their gaps with ordinals, segmenting and the form pointer are those of Mooers, "TRAC, A
//! Procedure-Describing Language for the Reactive Typewriter", CACM 9(3), 1966. The block, and that
//! a form costs 3 cells beside one for each character of its name and each item of its body, are
//! this processor's own choice. Nothing here takes memory.

mod body;
mod copy;
mod define;
mod fill;
mod form_finder;
mod form_writing;
mod index;
mod item;
mod listed;
mod marked_forms;
mod outside;
mod removal;
mod search;
mod segment;
mod store;
mod work;

pub use body::{Body, TextBody};
pub use item::{FormId, Full};
pub use listed::{Forms, StoredForm};
pub use crate::trac_language::Item;
pub use crate::trac_space::{Cell, Mode};
pub use crate::trac_store::before_comma;
pub use work::Work;

#[cfg(test)]
mod tests;
