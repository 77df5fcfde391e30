// Generated from crates/trac_language/src/item.rt by hosts/rust/generate, and never edited.
//! What forms are made of.

/// One item of a form's body, which takes one cell.
#[derive(Clone, Copy, Debug)]
pub enum Item {
    /// A character, which is any byte.
    Byte(u8),
    /// A gap with its ordinal, which a call of the form fills with the text of that number (Mooers
    /// 1966).
    Gap(u32),
}
