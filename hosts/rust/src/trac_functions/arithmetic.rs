// Generated from crates/trac_functions/src/arithmetic.rt by hosts/rust/generate, and never edited.
//! The functions of arithmetic: `ad`, `su`, `ml` and `dv`.

use crate::trac_functions::arguments::{Arguments, CallResult, give, load_part, put_part, text};
use crate::trac_functions::writing::put_bytes;
use itoa::Buffer;
use crate::trac_forms::Work;
use crate::trac_language::Arith;
use crate::trac_space::Part;

// 10 ^ 19, the greatest power of ten that 64 bits hold, and 2 ^ 127 divided by it.
const POWER: u128 = 10_000_000_000_000_000_000;

const INVERSE: u128 = 17_014_118_346_046_923_173;

const ZEROS: &[u8; 19] = b"0000000000000000000";

/// `ad,N1,N2,Z`, `su,N1,N2,Z`, `ml,N1,N2,Z` and `dv,N1,N2,Z`: the prefix of N1 and after it the
/// sum, difference, product or quotient of the numbers of N1 and N2 in decimal (Mooers 1966). Z,
/// which goes to the active string whatever the call's mode, where a number or the result is
/// outside the range of arithmetic or a divisor is 0; the range and that the quotient is rounded
/// towards 0 are this processor's own choice.
pub fn arithmetic(work: &mut Work, operation: Arith, mut arguments: Arguments) -> CallResult
{
    let scanned = arguments.scanned;
    let first = arguments.next(work);
    let second = arguments.next(work);
    let short = crate::trac_values::short_result(operation, text(work, first), text(work, second));
    let Some(result) = short else {
        let other = arguments.next(work);
        return long_arithmetic(work, operation, first, second, other, scanned);
    };
    let prefix = Part {
        from: first.from,
        to: first.from + result.start,
    };
    let mut buffer = Buffer::new();
    let digits = buffer.format(result.number).as_bytes();
    give_decimal(work, prefix, digits, scanned)
}

/// What `arithmetic` does with N1, N2 and Z, which are parts of the neutral string, where N1 or N2 is long,
/// the result doesn't fit in 64 bits, or a divisor is 0.
#[cold]
#[inline(never)]
fn long_arithmetic(
    work: &mut Work,
    operation: Arith,
    first: Part,
    second: Part,
    other: Part,
    scanned: bool,
) -> CallResult
{
    let left = crate::trac_values::tail_number(text(work, first));
    let right = crate::trac_values::tail_number(text(work, second));
    match crate::trac_values::result_of(operation, left.value, right.value) {
        Some(number) => {
            let prefix = Part {
                from: first.from,
                to: first.from + left.start,
            };
            give_number(work, prefix, number, scanned)
        }
        None => give(work, other, true),
    }
}

/// A part of the neutral string, and a number in decimal behind it, are the value of a call, which
/// goes to the active string where it is scanned again.
fn give_number(work: &mut Work, prefix: Part, number: i128, scanned: bool) -> CallResult
{
    if number.unsigned_abs() >= POWER {
        return give_long_number(work, prefix, number, scanned);
    }
    let mut buffer = Buffer::new();
    let digits = decimal(&mut buffer, number);
    give_decimal(work, prefix, digits, scanned)
}

/// A part of the neutral string, and digits behind it, at most 40 characters with a sign, are the value of
/// a call, which goes to the active string where it is scanned again.
#[inline(always)]
fn give_decimal(work: &mut Work, prefix: Part, digits: &[u8], scanned: bool) -> CallResult
{
    let free = work.free();
    let size = prefix.to - prefix.from + digits.len() as u32;
    if free < size {
        return CallResult::Full;
    }
    if scanned {
        work.load_bytes(digits);
        load_prefix(work, prefix);
        return CallResult::InFront(size);
    }
    put_prefix(work, prefix);
    put_bytes(work, digits);
    CallResult::AtEnd
}

/// A number in decimal, with its sign where it is negative. One that 64 bits hold takes less.
#[inline]
fn decimal(buffer: &mut Buffer, number: i128) -> &[u8]
{
    match i64::try_from(number) {
        Ok(short) => buffer.format(short).as_bytes(),
        Err(_) => buffer.format(number).as_bytes(),
    }
}

/// What `give_number` does with a number of more than nineteen digits: its last nineteen, and those
/// before them with the sign, are numbers of 64 bits.
#[inline(always)]
fn give_long_number(work: &mut Work, prefix: Part, number: i128, scanned: bool) -> CallResult
{
    let (quotient, rest) = parted(number.unsigned_abs());
    let mut front = Buffer::new();
    let mut back = Buffer::new();
    let first = front.format(with_sign(quotient, number < 0)).as_bytes();
    give_digits(work, prefix, first, back.format(rest).as_bytes(), scanned)
}

/// A part of the neutral string, digits, and nineteen digits of which zeros at the front are left
/// out here, are the value of a call.
fn give_digits(
    work: &mut Work,
    prefix: Part,
    first: &[u8],
    last: &[u8],
    scanned: bool,
) -> CallResult
{
    let free = work.free();
    let size = prefix.to - prefix.from + first.len() as u32 + 19;
    if free < size {
        return CallResult::Full;
    }
    if scanned {
        work.load_bytes(last);
        work.load_bytes(zeros_before(last));
        work.load_bytes(first);
        load_prefix(work, prefix);
        return CallResult::InFront(size);
    }
    put_prefix(work, prefix);
    put_bytes(work, first);
    put_bytes(work, zeros_before(last));
    put_bytes(work, last);
    CallResult::AtEnd
}

/// A number, or its negative.
fn with_sign(number: u64, negative: bool) -> i128
{
    if negative {
        -i128::from(number)
    } else {
        i128::from(number)
    }
}

/// The zeros that make nineteen digits, if they stand before `digits`, which are at most nineteen.
fn zeros_before(digits: &[u8]) -> &'static [u8]
{
    let zeros: &[u8] = ZEROS;
    &zeros[digits.len()..]
}

/// The quotient and the remainder of a number by 10 ^ 19. A guess that is too low by a few at most
/// takes the place of a division of 128 bits, which many processors lack.
fn parted(number: u128) -> (u64, u64)
{
    let mut quotient = ((number >> 64) * INVERSE) >> 63;
    let mut rest = number - quotient * POWER;
    while rest >= POWER {
        rest -= POWER;
        quotient += 1;
    }
    (quotient as u64, rest as u64)
}

/// Appends a part of the neutral string to that string. The caller has made sure that it fits. Most
/// parts are null, and then there is nothing to do.
#[inline(always)]
fn put_prefix(work: &mut Work, part: Part)
{
    if part.from < part.to {
        put_part(work, part);
    }
}

/// Puts a part of the neutral string before the active string. The caller has made sure that it fits.
#[inline(always)]
fn load_prefix(work: &mut Work, part: Part)
{
    if part.from < part.to {
        load_part(work, part);
    }
}
