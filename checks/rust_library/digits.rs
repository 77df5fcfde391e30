//! What the exports take of the kit's `itoa`, which has more than that of crates.io, and of `trac_devices`.

/// How many decimal digits a number has.
pub fn decimal_len(number: u32) -> u32 {
    number.checked_ilog10().unwrap_or(0) + 1
}

/// Writes the decimal digits of a number before a place of a buffer.
pub fn write_digits(number: u64, room: &mut [u8], end: usize) {
    let mut buffer = itoa::Buffer::new();
    let digits = buffer.format(number).as_bytes();
    room[end - digits.len()..end].copy_from_slice(digits);
}
