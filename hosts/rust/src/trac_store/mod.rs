// Generated from crates/trac_store/src/lib.rt by hosts/rust/generate, and never edited.
//! Forms as cells: how a form is read, searched, segmented and copied where its cells stand, and how it is
//! found among the cells of many. Which forms there are is kept one crate higher.
//!
//! Calls name a form by its number in the list of forms and by the place in the store where it begins.
//! Places and lengths count cells.
//!
//! Forms, their gaps with ordinals, segmenting and the form pointer are those of Mooers, "TRAC, A
//! Procedure-Describing Language for the Reactive Typewriter", CACM 9(3), 1966. How a form stands as
//! cells, and the table of an index, are this processor's own choice. Nothing here takes memory.

mod arguments;
mod borders;
mod form_cells;
mod form_heads;
mod gap_making;
mod indexed_forms;
mod item_copies;
mod item_search;
mod located;

pub use arguments::before_comma;
pub use form_cells::{FormCells, find_between_by_call, find_from_last};
pub use form_heads::{
    Heads, end_of, head, heads_of, item_in, item_of, number, number_in_head, tested_heads,
};
pub use gap_making::segment_store;
pub use indexed_forms::{IndexedForms, hash, open_slot};
pub use item_copies::fill_items;
pub use item_search::{find_text, first_character, first_gap, last_character};
pub use located::{FIRST_FORM, Located};
pub use crate::trac_language::Item;
