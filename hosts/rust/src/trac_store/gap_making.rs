// Generated from crates/trac_store/src/gap_making.rt by hosts/rust/generate, and never edited.
//! Segmenting: gaps among the cells of the store (Mooers 1966).

use crate::trac_store::borders::{first_place, tag_borders};
use crate::trac_space::{Cell, Part, Space};

// Whether `cell` is a character, the one that `byte` holds.
#[inline]
pub(crate) fn is_same_byte(cell: Cell, byte: Cell) -> bool
{
    let Cell::Byte(b) = cell else { return false };
    match byte {
        Cell::Byte(c) => b == c,
        _ => b == 0,
    }
}

// The first place in a part of the store where the text stands. None if there is none. The borders of the
// text are its tags.
fn next_place(space: &Space, body: Part, text: Part) -> Option<u32>
{
    let cells = space.store_part(body.from, body.to);
    match first_place(cells, 0, space.neutral_part(text.from, text.to)) {
        Some(place) => Some(body.from + place),
        None => None,
    }
}

// Replaces each occurrence of the text in a part of the store by a gap, and gives the new end of the
// part. The borders of the text are its tags.
fn make_gaps(space: &mut Space, body: Part, text: Part, ordinal: u32) -> u32
{
    let to = body.to;
    let mut read = body.from;
    let mut write = body.from;
    while let Some(place) = next_place(space, Part { from: read, to }, text) {
        space.move_in_store(read, place, write);
        write += place - read;
        space.write_store(write, Cell::Gap(ordinal));
        write += 1;
        read = place + (text.to - text.from);
    }
    space.move_in_store(read, to, write);
    write += to - read;
    space.remove_store(write, to);
    write
}

/// Replaces each occurrence of a text, a part of neutral, in a part of the store by a gap of this ordinal,
/// from the left, and gives the new end of the part (Mooers 1966). No occurrence reaches across a gap, and
/// a null text makes none. The cells that become free can be used at once.
pub fn segment_store(space: &mut Space, body: Part, text: Part, ordinal: u32) -> u32
{
    if text.from == text.to {
        return body.to;
    }
    tag_borders(space, text);
    let end = make_gaps(space, body, text, ordinal);
    space.clear_neutral_tags(text.from, text.to);
    end
}
