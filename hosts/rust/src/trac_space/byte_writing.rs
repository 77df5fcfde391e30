// Generated from crates/trac_space/src/byte_writing.rt by hosts/rust/generate, and never edited.
//! Writes the bytes of a text over cells.

use crate::trac_space::block::blank_block;
use crate::trac_space::cell::{Cell, set_byte};

// Writes the bytes of a text over as many cells. A few need no call.
#[inline(always)]
pub(crate) fn write_bytes(cells: &mut [Cell], text: &[u8])
{
    if text.len() < 8 {
        write_each(cells, text);
    } else {
        write_many(cells, text);
    }
}

// Writes the bytes of a text over as many cells, block by block and the last ones one by one.
#[inline(never)]
fn write_many(cells: &mut [Cell], text: &[u8])
{
    let done = write_blocks(cells, text);
    write_each(&mut cells[done..], &text[done..]);
}

// Writes the bytes of a text over as many cells, one by one.
#[inline(always)]
fn write_each(cells: &mut [Cell], text: &[u8])
{
    for i in 0..text.len() {
        write_byte(cells, text, i);
    }
}

// Writes the bytes of a text over as many cells, but only whole blocks of eight, two at a time. Gives how many
// bytes it wrote.
#[inline]
fn write_blocks(cells: &mut [Cell], text: &[u8]) -> usize
{
    let mut i = 0;
    while text.len() - i >= 16 {
        write_block(&mut cells[i..i + 8], &text[i..i + 8]);
        write_block(&mut cells[i + 8..i + 16], &text[i + 8..i + 16]);
        i += 16;
    }
    if text.len() - i < 8 {
        return i;
    }
    write_block(&mut cells[i..i + 8], &text[i..i + 8]);
    i + 8
}

// Writes eight bytes over eight cells. Blanks the cells first with one copy, so that each byte takes one
// store, and loads two bytes at once.
#[inline(always)]
fn write_block(cells: &mut [Cell], text: &[u8])
{
    blank_block(cells);
    let first = two_bytes(text, 0);
    set_byte(&mut cells[0], first.0);
    set_byte(&mut cells[1], first.1);
    let second = two_bytes(text, 2);
    set_byte(&mut cells[2], second.0);
    set_byte(&mut cells[3], second.1);
    let third = two_bytes(text, 4);
    set_byte(&mut cells[4], third.0);
    set_byte(&mut cells[5], third.1);
    let fourth = two_bytes(text, 6);
    set_byte(&mut cells[6], fourth.0);
    set_byte(&mut cells[7], fourth.1);
}

// The two bytes of a text from place `at` on, loaded as one number.
#[inline(always)]
fn two_bytes(text: &[u8], at: usize) -> (u8, u8)
{
    match text[at..at + 2].first_chunk::<2>() {
        Some(bytes) => {
            let number = u16::from_le_bytes(*bytes);
            ((number % 256) as u8, (number / 256) as u8)
        }
        None => (0, 0),
    }
}

// Writes byte `i` of a text over cell `i`.
#[inline]
fn write_byte(cells: &mut [Cell], text: &[u8], i: usize)
{
    cells[i] = Cell::Byte(text[i]);
}
