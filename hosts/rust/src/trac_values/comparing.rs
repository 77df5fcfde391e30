// Generated from crates/trac_values/src/comparing.rt by hosts/rust/generate, and never edited.
//! Compares the numbers at the ends of two texts, however long they are.

use crate::trac_values::digits::split_digits;
use crate::trac_values::number::{DIGITS_THAT_ADD, may_be_long, short_tail, tail_of_few};
use crate::trac_values::text::ends_with;
use core::cmp::Ordering;
use crate::trac_space::{Cell, character_of};

/// The digit at a place of a number that is filled with zeros at the left up to `long` digits.
fn digit_at(digits: &[Cell], long: usize, place: usize) -> u8
{
    if place + digits.len() < long {
        0
    } else {
        character_of(&digits[place + digits.len() - long]) - b'0'
    }
}

/// Compares the numbers of digits, however many they are.
fn compare_digits(a: &[Cell], b: &[Cell]) -> Ordering
{
    let long = a.len().max(b.len());
    let mut order = Ordering::Equal;
    for place in 0..long {
        order = order.then(digit_at(a, long, place).cmp(&digit_at(b, long, place)));
    }
    order
}

/// Whether the number at the end of text `a` is greater than the one at the end of text `b`: the test of
/// `gr` (Mooers 1966). That the numbers may have any length is this processor's own choice.
#[inline(always)]
pub fn greater(a: &[Cell], b: &[Cell]) -> bool
{
    if a.len() > DIGITS_THAT_ADD || b.len() > DIGITS_THAT_ADD {
        return longer_greater(a, b);
    }
    tail_of_few(a).1 > tail_of_few(b).1
}

/// Whether the number at the end of text `a` is greater than the one at the end of text `b`. Takes less
/// for numbers of at most 19 digits.
#[cold]
#[inline(never)]
fn longer_greater(a: &[Cell], b: &[Cell]) -> bool
{
    if may_be_long(a) || may_be_long(b) {
        return long_greater(a, b);
    }
    if let Some((_, m)) = short_tail(a) {
        if let Some((_, n)) = short_tail(b) {
            return m > n;
        }
    }
    long_greater(a, b)
}

/// Whether the number at the end of text `a` is greater than the one at the end of text `b`, found by
/// comparing their digits.
#[inline(never)]
fn long_greater(a: &[Cell], b: &[Cell]) -> bool
{
    let (a_front, a_digits) = split_digits(a);
    let (b_front, b_digits) = split_digits(b);
    let a_negative = ends_with(a_front, b'-');
    let b_negative = ends_with(b_front, b'-');
    if a_negative && b_negative {
        compare_digits(a_digits, b_digits).is_lt()
    } else if a_negative {
        false
    } else if b_negative {
        compare_digits(a_digits, &[]).is_gt() || compare_digits(b_digits, &[]).is_gt()
    } else {
        compare_digits(a_digits, b_digits).is_gt()
    }
}
