// Generated from crates/trac_forms/src/item.rt by hosts/rust/generate, and never edited.
//! How calls name a form, and how they say that a new one doesn't fit.

/// Too few cells are free for a new form. Nothing has changed.
#[derive(Clone, Copy, Debug)]
pub struct Full;

/// The place of a form in the list of forms, from 0.
///
/// After `define`, `delete`, `delete_named` and `delete_all` it may mean another form, or none: find the
/// form again.
#[derive(Clone, Copy, Debug, PartialEq, Eq)]
pub struct FormId(pub(crate) u32);
