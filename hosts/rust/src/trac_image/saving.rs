// Generated from crates/trac_image/src/saving.rt by hosts/rust/generate, and never edited.
//! Writes the image of a machine's forms to a buffer.

use crate::trac_image::buffer::put;
use crate::trac_image::checksum::{Checksum, NO_SUMS};
use crate::trac_image::content::HEAD;
use crate::{Cell, Forms, Item, Machine, StoredForm};
use crate::trac_space::character_of;

/// How many bytes of an image were written, and their sums.
#[derive(Clone, Copy, Debug)]
struct Written {
    len: usize,
    sums: Checksum,
}

/// Nothing was written.
const NOTHING: Written = Written {
    len: 0,
    sums: NO_SUMS,
};

/// Puts the image of a machine's forms and its meta character to the front of a buffer, as much of it as fits, and
/// gives its length. It has 14 bytes, 16 for each form, one for each character of a name or a body, and 8 for each
/// gap. The last four bytes are Adler-32 of those before them (RFC 1950), the least first.
pub fn save(machine: &Machine, room: &mut [u8]) -> usize
{
    let head = put_text(HEAD, NOTHING, room);
    let meta = put_byte(machine.meta(), head, room);
    let forms = machine.forms();
    let count = put_number(u64::from(forms.len()), meta, room);
    let content = put_forms(forms, count, room);
    put_sums(content, room).len
}

/// Puts the images of forms.
fn put_forms(forms: Forms, at: Written, room: &mut [u8]) -> Written
{
    let mut at = at;
    for form in forms {
        at = put_form(&form, at, room);
    }
    at
}

/// Puts the image of a form.
fn put_form(form: &StoredForm, at: Written, room: &mut [u8]) -> Written
{
    let name = put_number(form.name().len() as u64, at, room);
    let body = put_number(u64::from(form.body_len()), name, room);
    let characters = put_number(u64::from(count_characters(form)), body, room);
    let heads = put_number(u64::from(form.pointer()), characters, room);
    let named = put_cells(form.name(), heads, room);
    let text = put_characters(form, named, room);
    put_gaps(form, text, room)
}

/// How many characters the body of a form has.
fn count_characters(form: &StoredForm) -> u32
{
    let end = form.body_len();
    let mut count = 0;
    let mut place = 0;
    while place < end {
        let run = form.run(place, end).len() as u32;
        count += run;
        place += run + 1;
    }
    count
}

/// Puts the characters of cells.
fn put_cells(cells: &[Cell], at: Written, room: &mut [u8]) -> Written
{
    let mut at = at;
    for cell in cells {
        at = put_byte(character_of(cell), at, room);
    }
    at
}

/// Puts the characters of the body of a form: those that stand in a row, up to a gap, one row after the other.
fn put_characters(form: &StoredForm, at: Written, room: &mut [u8]) -> Written
{
    let end = form.body_len();
    let mut at = at;
    let mut place = 0;
    while place < end {
        let run = form.run(place, end);
        at = put_cells(run, at, room);
        place += run.len() as u32 + 1;
    }
    at
}

/// Puts the gaps of the body of a form.
fn put_gaps(form: &StoredForm, at: Written, room: &mut [u8]) -> Written
{
    let end = form.body_len();
    let mut at = at;
    let mut place = 0;
    while place < end {
        let since = form.run(place, end).len() as u32;
        place += since;
        at = put_gap(form.item(place), since, at, room);
        place += 1;
    }
    at
}

/// Puts an item's gap, if it is one, behind `since` characters.
fn put_gap(item: Option<Item>, since: u32, at: Written, room: &mut [u8]) -> Written
{
    match item {
        Some(Item::Gap(ordinal)) => {
            let place = put_number(u64::from(since), at, room);
            put_number(u64::from(ordinal), place, room)
        }
        Some(Item::Byte(_)) => at,
        None => at,
    }
}

/// Puts the sums of what was written.
fn put_sums(at: Written, room: &mut [u8]) -> Written
{
    let low = put_half(at.sums.low, at, room);
    put_half(at.sums.high, low, room)
}

/// Puts two bytes of a number, the least first.
fn put_half(number: u32, at: Written, room: &mut [u8]) -> Written
{
    let first = put_byte((number % 256) as u8, at, room);
    put_byte((number / 256 % 256) as u8, first, room)
}

/// Puts four bytes of a number, the least first.
fn put_number(number: u64, at: Written, room: &mut [u8]) -> Written
{
    let first = put_byte((number % 256) as u8, at, room);
    let second = put_byte((number / 256 % 256) as u8, first, room);
    let third = put_byte((number / 65_536 % 256) as u8, second, room);
    put_byte((number / 16_777_216 % 256) as u8, third, room)
}

/// Puts a text.
fn put_text(text: &[u8], at: Written, room: &mut [u8]) -> Written
{
    let mut at = at;
    for byte in text {
        at = put_byte(*byte, at, room);
    }
    at
}

/// Puts a byte: to its place if the buffer reaches as far.
fn put_byte(byte: u8, at: Written, room: &mut [u8]) -> Written
{
    put(byte, at.len, room);
    Written {
        len: at.len.saturating_add(1),
        sums: at.sums.with(byte),
    }
}
