// Generated from crates/trac_image/src/body.rt by hosts/rust/generate, and never edited.
//! The items of a body that stands in an image, read one by one.

/// The items of a body that are still to come, merged from its gaps and its characters.
#[derive(Clone, Copy, Debug)]
pub(crate) struct ImageBody<'i> {
    /// How many items there are.
    pub left: u32,
    /// How many characters stand behind the last gap.
    pub since: u32,
    pub gaps: &'i [u8],
    pub characters: &'i [u8],
}
