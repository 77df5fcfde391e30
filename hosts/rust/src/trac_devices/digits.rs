// Generated from crates/trac_devices/src/digits.rt by hosts/rust/generate, and never edited.
//! How many digits a number has.

/// How many decimal digits a number has.
#[inline(always)]
pub fn decimal_len(number: u32) -> u32
{
    if number < 10 {
        1
    } else if number < 100 {
        2
    } else if number < 1000 {
        3
    } else if number < 10_000 {
        4
    } else if number < 100_000 {
        5
    } else if number < 1_000_000 {
        6
    } else if number < 10_000_000 {
        7
    } else if number < 100_000_000 {
        8
    } else if number < 1_000_000_000 {
        9
    } else {
        10
    }
}
