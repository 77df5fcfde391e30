// Generated from crates/trac_image/src/buffer.rt by hosts/rust/generate, and never edited.
//! A caller's buffers, filled from the front as far as they reach.

/// Puts an item at a place of a buffer, or nowhere if the buffer ends before that place.
pub fn put<T: Copy>(item: T, place: usize, room: &mut [T])
{
    if place < room.len() {
        room[place] = item;
    }
}
