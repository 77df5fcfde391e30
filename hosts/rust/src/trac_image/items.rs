// Generated from crates/trac_image/src/items.rt by hosts/rust/generate, and never edited.
//! The items of a body that stands in an image.

use crate::trac_image::body::ImageBody;
use crate::trac_image::reading::{behind, byte_at, characters_of, gaps_of, heads_of, number_of};
use crate::trac_forms::Body;
use crate::trac_language::Item;

/// An item and the items behind it.
#[derive(Clone, Copy, Debug)]
pub(crate) struct FrontItem<'i> {
    pub item: Item,
    pub rest: ImageBody<'i>,
}

impl<'i> ImageBody<'i> {
    /// The items of the form at the front of a text.
    pub fn of(text: &'i [u8]) -> ImageBody<'i>
    {
        ImageBody {
            left: heads_of(text).body,
            since: 0,
            gaps: gaps_of(text),
            characters: characters_of(text),
        }
    }

    /// The next item, and those behind it. There must be one.
    pub fn split(&self) -> FrontItem<'i>
    {
        if self.is_gap() {
            self.split_gap()
        } else {
            self.split_character()
        }
    }

    /// Whether the next item is a gap.
    fn is_gap(&self) -> bool
    {
        !self.gaps.is_empty() && number_of(self.gaps) == self.since
    }

    /// The next item, which is a gap, and those behind it.
    fn split_gap(&self) -> FrontItem<'i>
    {
        FrontItem {
            item: Item::Gap(number_of(behind(self.gaps, 4))),
            rest: ImageBody {
                left: self.left - 1,
                since: 0,
                gaps: behind(self.gaps, 8),
                characters: self.characters,
            },
        }
    }

    /// The next item, which is a character, and those behind it.
    fn split_character(&self) -> FrontItem<'i>
    {
        FrontItem {
            item: Item::Byte(byte_at(self.characters, 0)),
            rest: ImageBody {
                left: self.left - 1,
                since: self.since + 1,
                gaps: self.gaps,
                characters: behind(self.characters, 1),
            },
        }
    }
}

impl<'i> Body for ImageBody<'i> {
    fn next_item(&mut self) -> Item {
        let front = self.split();
        *self = front.rest;
        front.item
    }
}

/// Whether a form whose parts are there stands at the front of a text, as its numbers say, and each of its gaps has an
/// ordinal from 1 to 16,777,216.
pub(crate) fn has_items(text: &[u8]) -> bool
{
    let heads = heads_of(text);
    let mut items = ImageBody::of(text);
    let mut gaps = 0;
    for _ in 0..heads.body {
        let next = items.split();
        if !is_fit(next.item) {
            return false;
        }
        gaps += gap_number(next.item);
        items = next.rest;
    }
    gaps == heads.body - heads.characters
}

/// 1 for a gap, 0 for a character.
fn gap_number(item: Item) -> u32
{
    match item {
        Item::Byte(_) => 0,
        Item::Gap(_) => 1,
    }
}

/// Whether an item is a character, or a gap with an ordinal from 1 to 16,777,216.
fn is_fit(item: Item) -> bool
{
    match item {
        Item::Byte(_) => true,
        Item::Gap(ordinal) => 0 < ordinal && ordinal <= 16_777_216,
    }
}
