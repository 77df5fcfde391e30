// Generated from crates/trac_forms/src/body.rt by hosts/rust/generate, and never edited.
//! Bodies of forms that are given from outside the block, item by item.

use crate::trac_language::Item;

/// The items of a body, given one after the other.
pub trait Body {
    /// Gives the next item. There must be one.
    fn next_item(&mut self) -> Item;
}

/// A text as the items of a body.
pub struct TextBody<'t> {
    text: &'t [u8],
}

impl<'t> TextBody<'t> {
    /// The characters of `text`.
    pub fn of(text: &'t [u8]) -> TextBody<'t>
    {
        TextBody { text }
    }
}

impl<'t> Body for TextBody<'t> {
    fn next_item(&mut self) -> Item {
        let byte = self.text[0];
        self.text = &self.text[1..];
        Item::Byte(byte)
    }
}
