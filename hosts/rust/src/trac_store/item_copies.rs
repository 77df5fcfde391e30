// Generated from crates/trac_store/src/item_copies.rt by hosts/rust/generate, and never edited.
//! Copies bodies of forms to the front of active, with their gaps filled.

use crate::trac_space::{Part, Space};

/// Copies items of the store to the front of active, each gap k replaced by argument k: the k-th, from 1,
/// of the texts between the comma marks of a part of neutral, or nothing if there is no such text (Mooers
/// 1966). Gives how many characters the copy has. None if it doesn't fit; then at most the index area has been
/// dropped.
#[inline(always)]
pub fn fill_items(space: &mut Space, items: Part, texts: Part) -> Option<u32>
{
    // A form that is called without arguments mostly has no gaps.
    if texts.to < texts.from {
        let loaded = load_items(space, items);
        if loaded.is_some() {
            return loaded;
        }
    }
    fill_gaps(space, items, texts)
}

// Copies items of the store to the front of active if all of them are characters and fit, and gives how
// many they are. None, with nothing changed, if it didn't copy them.
#[inline(always)]
fn load_items(space: &mut Space, items: Part) -> Option<u32>
{
    let size = items.to - items.from;
    if size == 0 {
        return Some(0);
    }
    if space.free_beside_index() < size {
        return load_items_over_index(space, items);
    }
    if space.load_characters(items.from, items.to) {
        Some(size)
    } else {
        None
    }
}

// Does what `load_items` does where the items don't fit beside the index area.
#[inline(never)]
fn load_items_over_index(space: &mut Space, items: Part) -> Option<u32>
{
    let size = items.to - items.from;
    if space.characters_from(items.from, items.to) < size || space.free() < size {
        return None;
    }
    space.reserve(size);
    space.load_from_store(items.from, items.to);
    Some(size)
}

// Does what `fill_items` does where gaps may be among the items. Meanwhile the places of the comma marks
// are tags of the texts.
#[inline(never)]
fn fill_gaps(space: &mut Space, items: Part, texts: Part) -> Option<u32>
{
    let first = texts.from.min(texts.to);
    let commas = space.tag_commas(first, texts.to);
    let given = Part {
        from: first,
        to: texts.to,
    };
    let loaded = load_filled(space, items, given, commas);
    space.clear_neutral_tags(first, first + commas);
    loaded
}

// Copies items of the store to the front of active, each gap k replaced by argument k: the k-th part, from
// 1, of the given cells of neutral, over which the places of their `commas` comma marks lie. Gives how many
// cells the copy has, None if it doesn't fit. Drops the index area if the copy doesn't fit beside it.
#[inline(always)]
fn load_filled(space: &mut Space, items: Part, given: Part, commas: u32) -> Option<u32>
{
    let loaded = space.load_filled(items.from, items.to, given.from, given.to, commas);
    if loaded.is_some() {
        return loaded;
    }
    space.drop_index_area();
    space.load_filled(items.from, items.to, given.from, given.to, commas)
}
