// Generated from crates/trac_values/src/counts.rt by hosts/rust/generate, and never edited.
//! The number at the end of a text as a count of characters or of bits.

use crate::trac_values::digits::split_digits;
use crate::trac_values::text::ends_with;
use crate::trac_space::{Cell, character_of};

/// A number up to a limit: whether it is negative, and its size or the limit, whichever is less.
#[derive(Clone, Copy, Debug)]
pub struct Count {
    pub negative: bool,
    pub size: u32,
}

/// The number of digits, or the limit if that is less.
fn value_up_to(digits: &[Cell], limit: u32) -> u32
{
    let mut value = 0;
    for cell in digits {
        value = (value * 10 + u32::from(character_of(cell) - b'0')).min(limit);
    }
    value
}

/// The number at the end of a text, of any length, up to a limit.
fn count_up_to(cells: &[Cell], limit: u32) -> Count
{
    let (front, digits) = split_digits(cells);
    let size = value_up_to(digits, limit);
    Count {
        negative: size > 0 && ends_with(front, b'-'),
        size,
    }
}

/// The number at the end of a text, for `cn` (Mooers 1966): how many characters, up to 16,777,216, as many
/// as a block can hold. The limit is this processor's own choice.
pub fn count_of(cells: &[Cell]) -> Count
{
    count_up_to(cells, 16_777_216)
}

/// The number at the end of a text, for `bs` (Mooers 1966): by how many bits to shift, up to 50,331,648, as
/// many as the digits in a block can have. The limit is this processor's own choice.
pub fn shift_of(cells: &[Cell]) -> Count
{
    count_up_to(cells, 50_331_648)
}

/// The remainder of the number of digits by a divisor.
fn remainder_of(digits: &[Cell], divisor: u32) -> u32
{
    let mut rest = 0;
    for cell in digits {
        rest = (rest * 10 + u32::from(character_of(cell) - b'0')) % divisor;
    }
    rest
}

/// By how many bits, fewer than `bits`, the number at the end of a text rotates a string of `bits` bits to
/// the left, for `br` (Mooers 1966).
pub fn rotation_of(cells: &[Cell], bits: u32) -> u32
{
    let (front, digits) = split_digits(cells);
    let rest = remainder_of(digits, bits);
    if rest > 0 && ends_with(front, b'-') {
        bits - rest
    } else {
        rest
    }
}
