// Generated from crates/trac_core/src/runs.rt by hosts/rust/generate, and never edited.
//! Runs of characters that follow one rule, which are scanned at once.

use crate::trac_core::rules::{ScanningRule, rule_by_first};
use crate::trac_space::{Cell, byte_in};

/// For each byte 1 where it is a comma, 2 where it has another rule of its own, and else 0.
pub(crate) const KINDS: &[u8; 256] = b"\
    \0\0\0\0\0\0\0\0\0\x02\x02\0\0\x02\0\0\0\0\0\0\0\0\0\0\0\0\0\0\0\0\0\0\
    \0\0\0\x02\0\0\0\0\x02\x02\0\0\x01\0\0\0\0\0\0\0\0\0\0\0\0\0\0\0\0\0\0\0\
    \0\0\0\0\0\0\0\0\0\0\0\0\0\0\0\0\0\0\0\0\0\0\0\0\0\0\0\0\0\0\0\0\
    \0\0\0\0\0\0\0\0\0\0\0\0\0\0\0\0\0\0\0\0\0\0\0\0\0\0\0\0\0\0\0\0\
    \0\0\0\0\0\0\0\0\0\0\0\0\0\0\0\0\0\0\0\0\0\0\0\0\0\0\0\0\0\0\0\0\
    \0\0\0\0\0\0\0\0\0\0\0\0\0\0\0\0\0\0\0\0\0\0\0\0\0\0\0\0\0\0\0\0\
    \0\0\0\0\0\0\0\0\0\0\0\0\0\0\0\0\0\0\0\0\0\0\0\0\0\0\0\0\0\0\0\0\
    \0\0\0\0\0\0\0\0\0\0\0\0\0\0\0\0\0\0\0\0\0\0\0\0\0\0\0\0\0\0\0\0";

/// For each byte 1 where it is a left parenthesis, 16 where it is a right one, and else 0.
const SIDES: &[u8; 256] = b"\
    \0\0\0\0\0\0\0\0\0\0\0\0\0\0\0\0\0\0\0\0\0\0\0\0\0\0\0\0\0\0\0\0\
    \0\0\0\0\0\0\0\0\x01\x10\0\0\0\0\0\0\0\0\0\0\0\0\0\0\0\0\0\0\0\0\0\0\
    \0\0\0\0\0\0\0\0\0\0\0\0\0\0\0\0\0\0\0\0\0\0\0\0\0\0\0\0\0\0\0\0\
    \0\0\0\0\0\0\0\0\0\0\0\0\0\0\0\0\0\0\0\0\0\0\0\0\0\0\0\0\0\0\0\0\
    \0\0\0\0\0\0\0\0\0\0\0\0\0\0\0\0\0\0\0\0\0\0\0\0\0\0\0\0\0\0\0\0\
    \0\0\0\0\0\0\0\0\0\0\0\0\0\0\0\0\0\0\0\0\0\0\0\0\0\0\0\0\0\0\0\0\
    \0\0\0\0\0\0\0\0\0\0\0\0\0\0\0\0\0\0\0\0\0\0\0\0\0\0\0\0\0\0\0\0\
    \0\0\0\0\0\0\0\0\0\0\0\0\0\0\0\0\0\0\0\0\0\0\0\0\0\0\0\0\0\0\0\0";

// How many characters of a run are looked at one by one before it is looked at by blocks.
const LOOKED_AT_ONE_BY_ONE: usize = 8;
// How many characters are looked at by one test of a table.
const BLOCK: usize = 8;
// What the table of parentheses says of a right one: more than of the left ones of a block together.
const RIGHT: u8 = 16;

/// How many layout characters begin the cells.
pub(crate) fn layout_characters(cells: &[Cell]) -> u32
{
    for (i, cell) in cells.iter().enumerate() {
        if !is_layout(byte_in(cell)) {
            return i as u32;
        }
    }
    cells.len() as u32
}

/// Whether a character is a tab, a line feed or a carriage return, which the scanner deletes outside
/// parentheses.
#[inline]
pub fn is_layout(character: u8) -> bool
{
    match rule_by_first(character) {
        ScanningRule::Layout => true,
        _ => false,
    }
}

/// How many ordinary characters begin the cells: the first few are looked at one by one, since most
/// runs are short.
pub(crate) fn ordinary_characters(cells: &[Cell]) -> u32
{
    let few = cells.len().min(LOOKED_AT_ONE_BY_ONE);
    match special_before(cells, 0, few) {
        Some(i) => i as u32,
        None => ordinary_run(cells, few),
    }
}

/// Where the first character with a rule of its own stands from a place on and before an end.
#[inline]
fn special_before(cells: &[Cell], from: usize, end: usize) -> Option<usize>
{
    let mut i = from;
    while i < end {
        if is_special(byte_in(&cells[i])) {
            return Some(i);
        }
        i += 1;
    }
    None
}

/// Whether a character has a rule of its own.
#[inline]
fn is_special(character: u8) -> bool
{
    match rule_by_first(character) {
        ScanningRule::Character => false,
        _ => true,
    }
}

/// How many ordinary characters begin the cells, of which these are some.
#[inline(never)]
fn ordinary_run(cells: &[Cell], known: usize) -> u32
{
    let i = ordinary_blocks(cells, known);
    match special_before(cells, i, cells.len()) {
        Some(i) => i as u32,
        None => cells.len() as u32,
    }
}

/// How many ordinary characters begin the cells, of which these are some, counted by whole blocks. Two
/// blocks are looked at in a turn.
#[inline]
fn ordinary_blocks(cells: &[Cell], known: usize) -> usize
{
    let mut i = known;
    while cells.len() - i >= 2 * BLOCK {
        let first = kinds(cells, i);
        let second = kinds(cells, i + BLOCK);
        if first + second > 0 {
            return if first > 0 { i } else { i + BLOCK };
        }
        i += 2 * BLOCK;
    }
    if cells.len() - i >= BLOCK && kinds(cells, i) == 0 {
        i + BLOCK
    } else {
        i
    }
}

/// What the table says of the eight characters from a place on, in all.
#[inline(always)]
fn kinds(cells: &[Cell], i: usize) -> u8
{
    // A slice of eight tells a compiler that doesn't know the contract that the places are there.
    let cells = &cells[i..i + 8];
    kind(&cells[0])
        + kind(&cells[1])
        + kind(&cells[2])
        + kind(&cells[3])
        + kind(&cells[4])
        + kind(&cells[5])
        + kind(&cells[6])
        + kind(&cells[7])
}

/// What the table says about the character of a cell.
#[inline]
fn kind(cell: &Cell) -> u8
{
    KINDS[usize::from(byte_in(cell))]
}

/// Where the right parenthesis stands that matches a left one before the cells.
pub(crate) fn matching(cells: &[Cell]) -> Option<u32>
{
    let mut depth = 0u32;
    let mut i = 0;
    while cells.len() - i >= BLOCK {
        let found = sides(cells, i);
        if found > 0 {
            let rights = u32::from(found / RIGHT);
            // A block with no more right parentheses than are open has no match.
            if rights > depth {
                if let Some(place) = matching_among(cells, i, BLOCK, depth) {
                    return Some(place);
                }
            }
            depth = depth + u32::from(found % RIGHT) - rights;
        }
        i += BLOCK;
    }
    matching_among(cells, i, cells.len() - i, depth)
}

/// Where among `number` characters from a place on the right parenthesis stands that matches a left
/// one before all cells. Before that place `opened` left parentheses are open.
#[inline]
fn matching_among(cells: &[Cell], from: usize, number: usize, opened: u32) -> Option<u32>
{
    let mut depth = opened;
    let mut count = 0;
    while count < number {
        let character = byte_in(&cells[from + count]);
        if character == b'(' {
            depth += 1;
        } else if character == b')' {
            if depth == 0 {
                return Some((from + count) as u32);
            }
            depth -= 1;
        }
        count += 1;
    }
    None
}

/// What the table of parentheses says of the eight characters from a place on, in all.
#[inline]
fn sides(cells: &[Cell], i: usize) -> u8
{
    let cells = &cells[i..i + 8];
    side(&cells[0])
        + side(&cells[1])
        + side(&cells[2])
        + side(&cells[3])
        + side(&cells[4])
        + side(&cells[5])
        + side(&cells[6])
        + side(&cells[7])
}

/// What that table says about the character of a cell.
#[inline]
fn side(cell: &Cell) -> u8
{
    SIDES[usize::from(byte_in(cell))]
}
