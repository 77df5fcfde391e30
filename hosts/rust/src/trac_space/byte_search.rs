// Generated from crates/trac_space/src/byte_search.rt by hosts/rust/generate, and never edited.
//! Looks for a byte in a text, up to thirty-two bytes at once.

/// How many bytes stand before the first `stop`; all of them if there is none.
#[inline(never)]
pub(crate) fn count_before(stop: u8, text: &[u8]) -> usize
{
    if matches!(text.first(), Some(first) if *first == stop) {
        return 0;
    }
    let done = count_blocks(stop, text);
    done + count_each(stop, &text[done..])
}

// How many bytes stand in the first blocks of sixteen without a `stop`. Two blocks are looked at in a turn.
#[inline]
fn count_blocks(stop: u8, text: &[u8]) -> usize
{
    let mut done = 0;
    while text.len() - done >= 32 {
        let first = has_byte(stop, &text[done..done + 16]);
        let second = has_byte(stop, &text[done + 16..done + 32]);
        if first | second {
            return if first { done } else { done + 16 };
        }
        done += 32;
    }
    if text.len() - done >= 16 && !has_byte(stop, &text[done..done + 16]) {
        done + 16
    } else {
        done
    }
}

// How many bytes stand before the first `stop`, looked at one by one; all of them if there is none.
#[inline]
fn count_each(stop: u8, text: &[u8]) -> usize
{
    for (i, byte) in text.iter().enumerate() {
        if *byte == stop {
            return i;
        }
    }
    text.len()
}

// The low seven bits of eight bytes, and the high bit of each.
const LOW_BITS: u64 = 0x7f7f_7f7f_7f7f_7f7f;

const HIGH_BITS: u64 = 0x8080_8080_8080_8080;

// Whether a byte stands among sixteen.
#[inline]
fn has_byte(byte: u8, text: &[u8]) -> bool
{
    others(byte, &text[..8]) & others(byte, &text[8..]) != HIGH_BITS
}

// Which of eight bytes are others than this one: the high bit of each of these, the first byte lowest.
#[inline(always)]
fn others(byte: u8, text: &[u8]) -> u64
{
    let differences = word(text) ^ u64::from(byte) * 0x0101_0101_0101_0101;
    (((differences & LOW_BITS) + LOW_BITS) | differences) & HIGH_BITS
}

// Eight bytes as a number, the first one lowest.
#[inline(always)]
fn word(text: &[u8]) -> u64
{
    match text.first_chunk::<8>() {
        Some(bytes) => u64::from_le_bytes(*bytes),
        None => 0,
    }
}
