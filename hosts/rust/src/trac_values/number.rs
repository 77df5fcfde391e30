// Generated from crates/trac_values/src/number.rt by hosts/rust/generate, and never edited.
//! Numbers at the end of texts, and arithmetic on them.

use crate::trac_values::digits::{long_value, number_in_few, number_in_two_parts, short_number, split_digits};
use crate::trac_values::text::ends_with;
use crate::trac_language::Arith;
use crate::trac_space::{Cell, byte_in};

/// The sum and the difference of two numbers of at most this many decimal digits fit in 64 bits.
pub(crate) const DIGITS_THAT_ADD: usize = 18;

/// The number at the end of a text, as `tail_number` finds it, and where it begins.
#[derive(Clone, Copy, Debug)]
pub struct TailNumber {
    /// The length of the prefix, the text before the number and its sign, in cells.
    pub start: u32,
    /// The number. None if it is outside the range of arithmetic, from -(2^127 - 1) up to 2^127 - 1.
    pub value: Option<i128>,
}

/// The length of the prefix of a text of at most 18 characters, in cells, and the number at its end.
#[inline(always)]
pub(crate) fn tail_of_few(cells: &[Cell]) -> (usize, i64)
{
    let (start, size) = number_in_few(cells);
    let (start, negative) = sign_before(cells, start);
    let size = size as i64;
    (start, if negative { -size } else { size })
}

/// The number with the other sign.
fn negated(value: Option<i128>) -> Option<i128>
{
    value?.checked_neg()
}

/// Whether the last of the cells, which are all characters, is `character`.
#[inline(always)]
fn is_last(cells: &[Cell], character: u8) -> bool
{
    !cells.is_empty() && byte_in(&cells[cells.len() - 1]) == character
}

/// Whether the twentieth character from the end is a digit, as in a number of 20 digits or more.
#[inline(always)]
pub(crate) fn may_be_long(cells: &[Cell]) -> bool
{
    cells.len() > 19 && byte_in(&cells[cells.len() - 20]).is_ascii_digit()
}

/// The length of the prefix of a text, in cells, and the number at its end. None if the number may have
/// more than 19 digits.
#[inline(always)]
pub(crate) fn short_tail(cells: &[Cell]) -> Option<(usize, i128)>
{
    let (start, size) = short_number(cells)?;
    Some(with_sign(cells, start, i128::from(size)))
}

/// The length of the prefix of a text, in cells, and whether a minus sign stands between the prefix and
/// the digits, which begin at `start`.
#[inline(always)]
fn sign_before(cells: &[Cell], start: usize) -> (usize, bool)
{
    let front = cells.split_at(start).0;
    if start == cells.len() {
        (start, false)
    } else if is_last(front, b'-') {
        (start - 1, true)
    } else if is_last(front, b'+') {
        (start - 1, false)
    } else {
        (start, false)
    }
}

/// The length of the prefix of a text, in cells, and the number at its end, whose digits begin at `start`
/// and have the value `size`.
#[inline(always)]
fn with_sign(cells: &[Cell], start: usize, size: i128) -> (usize, i128)
{
    let (start, negative) = sign_before(cells, start);
    (start, if negative { -size } else { size })
}

/// The number at the end of a text, and where it begins. Takes less for a number of 20 to 38 digits.
#[inline(always)]
fn long_tail(cells: &[Cell]) -> TailNumber
{
    let Some((start, size)) = number_in_two_parts(cells) else {
        return longest_tail(cells);
    };
    let (start, number) = with_sign(cells, start, size as i128);
    TailNumber {
        start: start as u32,
        value: Some(number),
    }
}

/// The number at the end of a text, of any length, and where it begins.
#[inline(never)]
fn longest_tail(cells: &[Cell]) -> TailNumber
{
    let (front, digits) = split_digits(cells);
    let value = long_value(digits);
    let start = front.len() as u32;
    if front.len() == cells.len() {
        return TailNumber {
            start,
            value: Some(0),
        };
    }
    if ends_with(front, b'-') {
        TailNumber {
            start: start - 1,
            value: negated(value),
        }
    } else if ends_with(front, b'+') {
        TailNumber {
            start: start - 1,
            value,
        }
    } else {
        TailNumber { start, value }
    }
}

/// The number at the end of a text, for arithmetic: the longest suffix of decimal digits, with one `+` or
/// `-` just before it. Without digits the number is 0 and the whole text is the prefix. That a number
/// stands at the right end behind a prefix is Mooers' rule of 1966, the rest this processor's own choice.
#[inline(always)]
pub fn tail_number(cells: &[Cell]) -> TailNumber
{
    let short = if may_be_long(cells) {
        None
    } else {
        short_tail(cells)
    };
    match short {
        Some((start, number)) => TailNumber {
            start: start as u32,
            value: Some(number),
        },
        None => long_tail(cells),
    }
}

/// The result of an operation on two numbers (Mooers 1966). None if one of them or the result is outside
/// the range of arithmetic, or if the divisor is 0; that is this processor's own choice.
pub fn result_of(operation: Arith, a: Option<i128>, b: Option<i128>) -> Option<i128>
{
    operation.apply(a?, b?)
}

/// The result of an operation on numbers of at most 18 digits. None if it is outside 64 bits, or if the
/// divisor is 0.
#[inline(always)]
fn result_in_64_bits(operation: Arith, a: i64, b: i64) -> Option<i64>
{
    match operation {
        Arith::Add => Some(a + b),
        Arith::Subtract => Some(a - b),
        Arith::Multiply => a.checked_mul(b),
        Arith::Divide => a.checked_div(b),
    }
}

/// The result of an operation on the numbers at the ends of two texts, as `short_result` finds it, and
/// where the first number begins.
#[derive(Clone, Copy, Debug)]
pub struct ShortResult {
    /// The length of the first text's prefix, the text before its number and its sign, in cells.
    pub start: u32,
    /// The result.
    pub number: i64,
}

/// The result of an operation on the numbers at the ends of two texts (Mooers 1966). None if a text has
/// more than 18 characters, if the result is outside 64 bits, or if the divisor is 0: then `tail_number` and
/// `result_of` tell the result.
#[inline(always)]
pub fn short_result(operation: Arith, a: &[Cell], b: &[Cell]) -> Option<ShortResult>
{
    if a.len() > DIGITS_THAT_ADD || b.len() > DIGITS_THAT_ADD {
        return None;
    }
    let (start, left) = tail_of_few(a);
    let (_, right) = tail_of_few(b);
    let number = result_in_64_bits(operation, left, right)?;
    Some(ShortResult {
        start: start as u32,
        number,
    })
}
