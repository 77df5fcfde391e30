// Generated from crates/trac_values/src/digits.rt by hosts/rust/generate, and never edited.
//! The digits at the end of a text, and their number while it fits in 64 or 128 bits.

use crate::trac_space::{Cell, byte_in, character_of};

/// Each number of this many decimal digits fits in 64 bits.
const DIGITS_IN_64_BITS: usize = 19;

// 10 ^ 19.
const POWER: u128 = 10_000_000_000_000_000_000;

/// Where the longest suffix of decimal digits begins.
fn digits_start(cells: &[Cell]) -> usize
{
    let mut start = cells.len();
    while start > 0 && character_of(&cells[start - 1]).is_ascii_digit() {
        start -= 1;
    }
    start
}

/// The number whose digits are those of `value` and then those of a part: the part's own number, and ten
/// to the power of how many digits it has. None if it, or `value`, is outside the range of arithmetic.
fn with_part(value: Option<i128>, part: (u64, u64)) -> Option<i128>
{
    value?
        .checked_mul(i128::from(part.1))?
        .checked_add(i128::from(part.0))
}

/// The text before its longest suffix of decimal digits, and these digits.
pub(crate) fn split_digits(cells: &[Cell]) -> (&[Cell], &[Cell])
{
    cells.split_at(digits_start(cells))
}

/// Where the longest suffix of decimal digits begins, and its number. None if it may have more than 19
/// digits, which can be too many for 64 bits.
#[inline(always)]
pub(crate) fn short_number(cells: &[Cell]) -> Option<(usize, u64)>
{
    let least = cells.len().saturating_sub(19);
    let mut start = cells.len();
    let mut value: u64 = 0;
    let mut power: u64 = 1;
    while start > least {
        let character = byte_in(&cells[start - 1]);
        if !character.is_ascii_digit() {
            return Some((start, value));
        }
        value += u64::from(character - b'0') * power;
        power *= 10;
        start -= 1;
    }
    if least == 0 { Some((0, value)) } else { None }
}

/// Where the longest suffix of decimal digits begins, and its number, in a text of at most 18 characters.
/// Takes less where they all are digits.
#[inline(always)]
pub(crate) fn number_in_few(cells: &[Cell]) -> (usize, u64)
{
    let mut value = 0;
    for i in 0..cells.len() {
        let character = byte_in(&cells[i]);
        if !character.is_ascii_digit() {
            return number_among_others(cells);
        }
        value = value * 10 + u64::from(character - b'0');
    }
    (0, value)
}

/// Where the longest suffix of decimal digits begins, and its number, in a text of at most 18 characters.
/// Each character that is no digit begins the number anew.
#[inline(always)]
fn number_among_others(cells: &[Cell]) -> (usize, u64)
{
    let mut start = 0;
    let mut value = 0;
    for i in 0..cells.len() {
        let character = byte_in(&cells[i]);
        if character.is_ascii_digit() {
            value = value * 10 + u64::from(character - b'0');
        } else {
            value = 0;
            start = i + 1;
        }
    }
    (start, value)
}

/// The number of at most 19 digits, and ten to the power of how many they are.
fn part_value(digits: &[Cell]) -> (u64, u64)
{
    let mut value = 0;
    let mut power = 1;
    for i in 0..digits.len() {
        value = value * 10 + u64::from(byte_in(&digits[i]) - b'0');
        power *= 10;
    }
    (value, power)
}

/// The number of digits, however many they are, read in parts that fit in 64 bits. None if it is outside
/// the range of arithmetic.
pub(crate) fn long_value(digits: &[Cell]) -> Option<i128>
{
    let mut value = Some(0);
    let mut done = 0;
    while done < digits.len() {
        let end = done + (digits.len() - done).min(DIGITS_IN_64_BITS);
        value = with_part(value, part_value(&digits[done..end]));
        done = end;
    }
    value
}

/// Where the longest suffix of decimal digits begins, and its number, read as two numbers of at most 19
/// digits. None if it may have more than 38 digits, or if the text has fewer than 19 characters.
#[inline(always)]
pub(crate) fn number_in_two_parts(cells: &[Cell]) -> Option<(usize, u128)>
{
    let (front, back) = cells.split_last_chunk::<DIGITS_IN_64_BITS>()?;
    let (start, low) = short_number(back)?;
    if start > 0 {
        return Some((front.len() + start, u128::from(low)));
    }
    let (start, high) = short_number(front)?;
    Some((start, u128::from(high) * POWER + u128::from(low)))
}
