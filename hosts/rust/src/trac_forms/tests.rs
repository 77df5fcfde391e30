// Generated from crates/trac_forms/src/tests.rt by hosts/rust/generate, and never edited.

mod index;
mod occurrences;

use crate::trac_forms::{Cell, FormId, Item, Mode, Work};
use crate::stand_in::Fail;
use crate::trac_space::make_block;

fn is_byte(cell: Option<Cell>, byte: u8) -> bool {
    match cell {
        Some(Cell::Byte(b)) => b == byte,
        _ => false,
    }
}

// Appends the text to neutral, and answers whether all of it fits.
fn push(work: &mut Work, text: &[u8]) -> bool {
    let mut fits = true;
    for byte in text {
        fits = work.push_neutral(Cell::Byte(*byte)) && fits;
    }
    fits
}

fn are_bytes(cells: &[Cell]) -> bool
{
    for cell in cells {
        if !crate::trac_space::is_character(cell) {
            return false;
        }
    }
    true
}

// Whether all cells in the part of neutral are characters.
fn is_text(work: &Work, part: (u32, u32)) -> bool
{
    if part.0 > part.1 || part.1 > work.neutral_len() {
        return false;
    }
    are_bytes(work.neutral_part(part.0, part.1))
}

fn define(work: &mut Work, name: (u32, u32), text: (u32, u32)) -> bool {
    is_text(work, name) && is_text(work, text) && work.define(name, text).is_ok()
}

fn find(work: &mut Work, name: (u32, u32)) -> Option<FormId> {
    if is_text(work, name) {
        work.find(name.0, name.1)
    } else {
        None
    }
}

fn item(work: &Work, form: FormId, i: u32) -> Option<Item> {
    if form.0 < work.forms() && i < work.body_len(form) {
        Some(work.item(form, i))
    } else {
        None
    }
}

fn segment(work: &mut Work, form: FormId, part: (u32, u32), ordinal: u32) {
    if form.0 < work.forms() && is_text(work, part) {
        work.segment(form, part, ordinal);
    }
}

fn occurrence(work: &mut Work, form: FormId, from: u32, part: (u32, u32)) -> Option<(u32, u32)> {
    if form.0 < work.forms()
        && from <= work.body_len(form)
        && part.0 < part.1
        && is_text(work, part)
    {
        work.occurrence(form, from, part)
    } else {
        None
    }
}

fn has_no_gap(work: &Work, form: FormId, a: u32, b: u32) -> bool
{
    match work.next_gap(form, a) {
        Some(gap) => b <= gap,
        None => true,
    }
}

// Copies characters of the form's body if no gap stands among them.
fn copy_body(work: &mut Work, form: FormId, a: u32, b: u32) -> bool {
    if form.0 < work.forms() && a <= b && b <= work.body_len(form) && has_no_gap(work, form, a, b) {
        work.copy_body(form, a, b)
    } else {
        false
    }
}

// Takes the next character of the form.
fn take_character(work: &mut Work, form: FormId) -> bool {
    form.0 < work.forms() && work.take_character(form)
}

// Moves the part of neutral from the place on to the front of active if it is a text.
fn to_active(work: &mut Work, from: u32) -> bool {
    let end = work.neutral_len();
    let fits = is_text(work, (from, end));
    if fits {
        work.neutral_to_active(from);
    }
    fits
}

fn are_the_bytes(cells: &[Cell], text: &[u8]) -> bool {
    if cells.len() != text.len() {
        return false;
    }
    for (cell, byte) in cells.iter().zip(text) {
        if !is_byte(Some(*cell), *byte) {
            return false;
        }
    }
    true
}

// How many arguments the innermost open call has.
fn arguments(work: &Work) -> Option<u32> {
    match work.last_call() {
        Some(call) => Some(work.arguments(call, work.neutral_len())),
        None => None,
    }
}

fn argument(work: &Work, k: u32) -> Option<(u32, u32)> {
    match work.last_call() {
        Some(call) => work.argument(call, work.neutral_len(), k),
        None => None,
    }
}

#[test]
fn form_in_the_block() -> Result<(), Fail> {
    let mut block = make_block(7)?;
    assert_eq!(block.len(), 7);
    let mut work = Work::over(&mut block);
    assert!(push(&mut work, b"Ab"));
    assert!(define(&mut work, (0, 1), (1, 2)));
    assert!(work.forms() == 1);
    assert!(work.used() == 7);
    assert!(!define(&mut work, (0, 1), (1, 2)));
    assert!(work.forms() == 1);
    assert_eq!(block.len(), 7);
    assert!(matches!(block[0], Cell::Head(1)));
    assert!(matches!(block[1], Cell::Head(1)));
    assert!(matches!(block[2], Cell::Head(0)));
    assert!(matches!(block[3], Cell::Byte(65)));
    assert!(matches!(block[4], Cell::Byte(98)));
    Ok(())
}

#[test]
fn replaced_form_is_last() {
    let mut block = [Cell::Gap(7); 40];
    let mut work = Work::over(&mut block);
    assert!(push(&mut work, b"AB12"));
    assert!(define(&mut work, (0, 1), (2, 3)));
    assert!(define(&mut work, (1, 2), (2, 4)));
    let used = work.used();
    assert!(define(&mut work, (0, 1), (3, 4)));
    assert!(work.used() == used);
    assert!(work.forms() == 2);
    let Some(first) = work.form(0) else {
        panic!("no form")
    };
    assert!(is_byte(work.name(first).get(0).copied(), b'B'));
    assert!(work.body_len(first) == 2);
    let Some(second) = find(&mut work, (0, 1)) else {
        panic!("no form")
    };
    assert!(matches!(item(&work, second, 0), Some(Item::Byte(b'2'))));
    assert!(find(&mut work, (1, 3)).is_none());
    let Some(first) = work.form(0) else {
        panic!("no form")
    };
    work.delete(first);
    assert!(work.forms() == 1);
    assert!(find(&mut work, (0, 1)).is_some());
    assert!(find(&mut work, (1, 2)).is_none());
    work.delete_all();
    assert!(work.forms() == 0);
    assert!(work.form(0).is_none());
}

#[test]
fn gaps_and_places() {
    let mut block = [Cell::Gap(7); 40];
    let mut work = Work::over(&mut block);
    assert!(push(&mut work, b"Gabcabcbab"));
    assert!(define(&mut work, (0, 1), (1, 6)));
    let Some(form) = find(&mut work, (0, 1)) else {
        panic!("no form")
    };
    // abcab, segmented by c and then by bab, which would reach across the gap
    segment(&mut work, form, (3, 4), 1);
    segment(&mut work, form, (7, 10), 2);
    assert!(matches!(item(&work, form, 1), Some(Item::Byte(b'b'))));
    assert!(matches!(item(&work, form, 2), Some(Item::Gap(1))));
    assert!(matches!(item(&work, form, 3), Some(Item::Byte(b'a'))));
    assert!(item(&work, form, 5).is_none());
    // ab stands at 0 and at 3, and bab nowhere
    assert!(occurrence(&mut work, form, 0, (1, 3)) == Some((0, 2)));
    assert!(occurrence(&mut work, form, 1, (1, 3)) == Some((3, 5)));
    assert!(occurrence(&mut work, form, 0, (7, 10)).is_none());
    assert!(form.0 < work.forms());
    assert!(work.body_len(form) == 5);
    assert!(work.next_gap(form, 0) == Some(2));
    assert!(work.next_gap(form, 3).is_none());
    assert!(work.next_char(form, 2) == Some(3));
    assert!(work.previous_char(form, 3) == Some(1));
    assert!(work.previous_char(form, 0).is_none());
    assert!(work.pointer(form) == 0);
    work.set_pointer(form, 3);
    assert!(form.0 < work.forms());
    assert!(work.pointer(form) == 3);
    work.clear_neutral();
    assert!(form.0 < work.forms());
    assert!(work.copy_name(form));
    assert!(is_byte(work.neutral_at(0), b'G'));
}

#[test]
fn strings_beside_a_form() {
    let mut block = [Cell::Gap(7); 20];
    let mut work = Work::over(&mut block);
    assert!(work.room() == 20);
    assert!(push(&mut work, b"Fabc"));
    assert!(define(&mut work, (0, 1), (1, 4)));
    assert!(work.used() == 11);
    work.clear_neutral();
    assert!(work.free() == 13);
    work.clear_active();
    assert!(work.load_active(b"ABCDE"));
    assert!(work.active_len() == 5);
    assert!(are_the_bytes(work.active_part(1, 3), b"BC"));
    assert!(is_byte(work.take_active(), b'A'));
    work.drop_active(1);
    assert!(is_byte(work.active_at(0), b'C'));
    work.active_to_neutral(2);
    assert!(are_the_bytes(work.neutral_part(0, 2), b"CD"));
    assert!(are_the_bytes(work.active_part(0, 1), b"E"));
    assert!(work.copy_neutral(0, 1));
    assert!(are_the_bytes(work.neutral_part(0, 3), b"CDC"));
    work.drop_neutral(0, 1);
    assert!(are_the_bytes(work.neutral_part(0, 2), b"DC"));
    work.cut_neutral(1);
    assert!(work.neutral_len() == 1);
    assert!(work.push_bytes(b"xy"));
    assert!(are_the_bytes(work.neutral_part(0, 3), b"Dxy"));
    work.cut_neutral(1);
    assert!(to_active(&mut work, 0));
    assert!(work.active_len() == 2);
    assert!(is_byte(work.active_at(0), b'D'));
    assert!(is_byte(work.active_at(1), b'E'));
    assert!(work.forms() == 1);
}

#[test]
fn copies_of_a_form() {
    let mut block = [Cell::Gap(7); 14];
    let mut work = Work::over(&mut block);
    assert!(push(&mut work, b"Fabc"));
    assert!(define(&mut work, (0, 1), (1, 4)));
    let Some(form) = find(&mut work, (0, 1)) else {
        panic!("no form")
    };
    // 3 cells are free
    assert!(copy_body(&mut work, form, 1, 3));
    assert!(is_byte(work.neutral_at(4), b'b'));
    assert!(is_byte(work.neutral_at(5), b'c'));
    assert!(work.neutral_at(6).is_none());
    assert!(!copy_body(&mut work, form, 0, 2));
    assert!(work.neutral_at(6).is_none());
    assert!(copy_body(&mut work, form, 2, 2));
    assert!(copy_body(&mut work, form, 0, 1));
    assert!(is_byte(work.neutral_at(6), b'a'));
    assert!(work.free() == 0);
}

#[test]
fn characters_taken_up_to_a_gap() {
    let mut block = [Cell::Gap(7); 13];
    let mut work = Work::over(&mut block);
    assert!(push(&mut work, b"Fabxc"));
    assert!(define(&mut work, (0, 1), (1, 5)));
    let Some(form) = find(&mut work, (0, 1)) else {
        panic!("no form")
    };
    // abxc, segmented by x
    segment(&mut work, form, (3, 4), 1);
    work.clear_neutral();
    assert!(take_character(&mut work, form));
    assert!(take_character(&mut work, form));
    assert!(is_byte(work.neutral_at(0), b'a'));
    assert!(is_byte(work.neutral_at(1), b'b'));
    assert!(!take_character(&mut work, form));
    assert!(work.neutral_len() == 2);
    assert!(form.0 < work.forms());
    assert!(work.pointer(form) == 2);
}

#[test]
fn no_character_taken_into_a_full_block() {
    let mut block = [Cell::Gap(7); 12];
    let mut work = Work::over(&mut block);
    assert!(push(&mut work, b"Fab"));
    assert!(define(&mut work, (0, 1), (1, 3)));
    let Some(form) = find(&mut work, (0, 1)) else {
        panic!("no form")
    };
    assert!(push(&mut work, b"xyz"));
    assert!(work.free() == 0);
    assert!(!take_character(&mut work, form));
    work.clear_neutral();
    assert!(take_character(&mut work, form));
    assert!(take_character(&mut work, form));
    assert!(is_byte(work.neutral_at(1), b'b'));
    // no item follows
    assert!(!take_character(&mut work, form));
}

#[test]
fn arguments_of_a_call() {
    let mut block = [Cell::Gap(7); 9];
    let mut work = Work::over(&mut block);
    assert!(arguments(&work).is_none());
    // ##(ds,,b
    assert!(work.push_neutral(Cell::Call(Mode::Neutral, 0)));
    assert!(push(&mut work, b"ds"));
    assert!(work.push_neutral(Cell::Comma));
    assert!(work.push_neutral(Cell::Comma));
    assert!(push(&mut work, b"b"));
    assert!(work.last_call() == Some(0));
    assert!(arguments(&work) == Some(3));
    assert!(argument(&work, 0) == Some((1, 3)));
    assert!(argument(&work, 1) == Some((4, 4)));
    assert!(argument(&work, 2) == Some((5, 6)));
    assert!(argument(&work, 3).is_none());
}
