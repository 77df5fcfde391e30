// Generated from crates/trac_store/src/located.rt by hosts/rust/generate, and never edited.
//! Forms whose place in the store is known.

/// A form: its number in the list, from 0, and the place in the store where it begins.
///
/// Past the last form, these are the number of forms and the length of the store.
#[derive(Clone, Copy, Debug)]
pub struct Located {
    pub number: u32,
    pub start: u32,
}

/// Where the first form is.
pub const FIRST_FORM: Located = Located {
    number: 0,
    start: 0,
};
