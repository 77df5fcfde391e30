// Generated from crates/trac_functions/src/bit_strings.rt by hosts/rust/generate, and never edited.
//! The functions of bit strings: `bu`, `bi`, `bc`, `bs` and `br`.

use crate::trac_functions::arguments::{Arguments, CallResult, put_part, text};
use crate::trac_forms::{Cell, Work};
use crate::trac_space::Part;
use crate::trac_values::Count;

/// An operation on bit strings, and the parts of the neutral string where their octal digits stand. A shift
/// also has its number of bits, to the left unless negative, and a rotation its number of bits to the left.
#[derive(Clone, Copy, Debug)]
pub enum BitResult {
    Union(Part, Part),
    Intersection(Part, Part),
    Complement(Part),
    Shift(Count, Part),
    Rotation(u32, Part),
}

/// `bu,A,B`: the prefix of A and after it the union of the bit strings of A and B in octal digits
/// (Mooers 1966). That the shorter is filled with zeros at the left, and that the prefix of B is
/// dropped, is this processor's own choice.
pub fn union(work: &mut Work, mut arguments: Arguments) -> CallResult
{
    let first = arguments.next(work);
    let second = arguments.next(work);
    let left = digits_of(work, first);
    let right = digits_of(work, second);
    give_bits(work, first, left, BitResult::Union(left, right))
}

/// `bi,A,B`: the prefix of A and after it the intersection of the bit strings
/// of A and B in octal digits (Mooers 1966). That the longer is cut at the
/// left, and that the prefix of B is dropped, is this processor's own choice.
pub fn intersection(work: &mut Work, mut arguments: Arguments) -> CallResult
{
    let first = arguments.next(work);
    let second = arguments.next(work);
    let left = digits_of(work, first);
    let right = digits_of(work, second);
    give_bits(work, first, left, BitResult::Intersection(left, right))
}

/// `bc,O`: the prefix of O and after it the octal digits of
/// its bit string with each bit turned over (Mooers 1966).
pub fn complement(work: &mut Work, mut arguments: Arguments) -> CallResult
{
    let first = arguments.next(work);
    let digits = digits_of(work, first);
    give_bits(work, first, digits, BitResult::Complement(digits))
}

/// `bs,D,O`: the prefix of O and after it the octal digits of its bit string, shifted by as many
/// bits as the number of D says, to the left where that is positive and to the right where it is
/// negative (Mooers 1966). That zeros come in and the length is kept, and that the number may have
/// any length, is this processor's own choice.
pub fn shift(work: &mut Work, mut arguments: Arguments) -> CallResult
{
    let distance = arguments.next(work);
    let shifted = arguments.next(work);
    let by = crate::trac_values::shift_of(text(work, distance));
    let digits = digits_of(work, shifted);
    give_bits(work, shifted, digits, BitResult::Shift(by, digits))
}

/// `br,D,O`: the prefix of O and after it the octal digits of its bit string,
/// rotated by as many bits as the number of D says, to the left where that is
/// positive and to the right where it is negative (Mooers 1966). That the length is
/// kept, and that the number may have any length, is this processor's own choice.
pub fn rotate(work: &mut Work, mut arguments: Arguments) -> CallResult
{
    let distance = arguments.next(work);
    let rotated = arguments.next(work);
    let digits = digits_of(work, rotated);
    let bits = (3 * (digits.to - digits.from)).max(1);
    let by = crate::trac_values::rotation_of(text(work, distance), bits);
    give_bits(work, rotated, digits, BitResult::Rotation(by, digits))
}

/// Where the octal digits stand at the end of a part of the neutral string.
fn digits_of(work: &Work, part: Part) -> Part
{
    Part {
        from: part.from + crate::trac_values::octal_start(text(work, part)),
        to: part.to,
    }
}

/// The cells of octal digits.
fn digit_cells<'a>(work: &'a Work, part: Part) -> &'a [Cell]
{
    work.neutral_part(part.from, part.to)
}

/// How many octal digits a result has.
fn digits_made(work: &Work, bits: BitResult) -> u32
{
    match bits {
        BitResult::Union(a, b) => (a.to - a.from).max(b.to - b.from),
        BitResult::Intersection(a, b) => (a.to - a.from).min(b.to - b.from),
        BitResult::Complement(a) => a.to - a.from,
        BitResult::Shift(_, a) => a.to - a.from,
        BitResult::Rotation(_, a) => a.to - a.from,
    }
}

/// The octal digit at a place of a result, counted from the left; None past its end.
fn digit_made(work: &Work, bits: BitResult, place: u32) -> Option<u8>
{
    match bits {
        BitResult::Union(a, b) => {
            crate::trac_values::union_digit(digit_cells(work, a), digit_cells(work, b), place)
        }
        BitResult::Intersection(a, b) => {
            crate::trac_values::intersection_digit(digit_cells(work, a), digit_cells(work, b), place)
        }
        BitResult::Complement(a) => crate::trac_values::complement_digit(digit_cells(work, a), place),
        BitResult::Shift(by, a) => crate::trac_values::shifted_digit(digit_cells(work, a), by, place),
        BitResult::Rotation(by, a) => {
            if a.from == a.to {
                return None;
            }
            crate::trac_values::rotated_digit(digit_cells(work, a), by, place)
        }
    }
}

/// Appends the octal digits of a result to the neutral string. The caller has made sure that they fit.
fn put_digits(work: &mut Work, bits: BitResult)
{
    for place in 0..digits_made(work, bits) {
        if let Some(digit) = digit_made(work, bits, place) {
            work.push_neutral(Cell::Byte(digit));
        }
    }
}

/// The prefix of an argument, which is what stands before its digits, and the octal digits of a result behind
/// it are the value of a call.
fn give_bits(work: &mut Work, argument: Part, digits: Part, bits: BitResult) -> CallResult
{
    let prefix = Part {
        from: argument.from,
        to: digits.from,
    };
    if work.free() < prefix.to - prefix.from + digits_made(work, bits) {
        return CallResult::Full;
    }
    put_part(work, prefix);
    put_digits(work, bits);
    CallResult::AtEnd
}
