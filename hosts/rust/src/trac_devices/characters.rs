// Generated from crates/trac_devices/src/characters.rt by hosts/rust/generate, and never edited.
//! Characters of cells, as bytes.

use crate::trac_space::{Cell, byte_in, character_of};

/// A text in cells, each of which is a character.
pub struct Characters<'a> {
    cells: &'a [Cell],
}

impl<'a> Characters<'a> {
    /// The text of cells that are all characters.
    #[inline]
    pub fn new(cells: &'a [Cell]) -> Characters<'a>
    {
        Characters { cells }
    }

    /// How many characters the text has.
    #[inline]
    pub fn len(&self) -> usize
    {
        self.cells.len()
    }

    /// The character at place `i`.
    #[inline]
    pub fn at(&self, i: usize) -> u8
    {
        let cells = self.cells;
        byte_in(&cells[i])
    }

    /// The characters from place `a` up to `b`.
    #[inline]
    pub fn part(&self, a: usize, b: usize) -> Characters<'a>
    {
        let cells = self.cells;
        Characters {
            cells: &cells[a..b],
        }
    }

    /// Writes the characters over as many bytes. Use it in a sink that has a buffer.
    pub fn write(&self, bytes: &mut [u8])
    {
        write_all(self.cells, bytes);
    }
}

/// Writes the characters of cells over as many bytes, and 0 for a cell that is no character.
pub fn write_characters(text: &[Cell], bytes: &mut [u8])
{
    let mut i = 0;
    while i < text.len() {
        write_character(text, bytes, i);
        i += 1;
    }
}

// Writes the character of cell `i` over byte `i`.
#[inline]
fn write_character(text: &[Cell], bytes: &mut [u8], i: usize)
{
    bytes[i] = character_of(&text[i]);
}

// Writes characters over as many bytes.
fn write_all(text: &[Cell], bytes: &mut [u8])
{
    let mut i = write_blocks(text, bytes);
    while i < text.len() {
        write_byte(text, bytes, i);
        i += 1;
    }
}

// Writes characters over as many bytes, but only whole blocks of eight, two at a time. Gives how many bytes it
// wrote.
#[inline]
fn write_blocks(text: &[Cell], bytes: &mut [u8]) -> usize
{
    let mut i = 0;
    while text.len() - i >= 16 {
        write_block(text, bytes, i);
        write_block(text, bytes, i + 8);
        i += 16;
    }
    if text.len() - i < 8 {
        return i;
    }
    write_block(text, bytes, i);
    i + 8
}

// Writes the eight characters from cell `i` on over their bytes.
#[inline(always)]
fn write_block(text: &[Cell], bytes: &mut [u8], i: usize)
{
    // Slices of eight tell a compiler that doesn't know the contract that the places are there.
    let cells = &text[i..i + 8];
    let block = &mut bytes[i..i + 8];
    write_byte(cells, block, 0);
    write_byte(cells, block, 1);
    write_byte(cells, block, 2);
    write_byte(cells, block, 3);
    write_byte(cells, block, 4);
    write_byte(cells, block, 5);
    write_byte(cells, block, 6);
    write_byte(cells, block, 7);
}

// Writes the character of cell `i`, which is one, over byte `i`.
#[inline(always)]
fn write_byte(text: &[Cell], bytes: &mut [u8], i: usize)
{
    bytes[i] = byte_in(&text[i]);
}
