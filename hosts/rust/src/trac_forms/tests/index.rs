// Generated from crates/trac_forms/src/tests/index.rt by hosts/rust/generate, and never edited.
//! The index of forms: it is made, follows each change of the forms, and gives way to strings.

use super::{define, find, push, segment};
use crate::trac_forms::{Cell, FormId, Item, Work};

// The letters that name forms, and behind them a body.
const LETTERS: &[u8] = b"ABCDEFGHIJKLMNOPQRSTUVWXYZx-x";

// Where a letter stands in neutral.
fn part(letter: u8) -> (u32, u32) {
    let place = (letter as u32).saturating_sub(65).min(25);
    (place, place + 1)
}

fn define_letter(work: &mut Work, letter: u8) -> bool {
    define(work, part(letter), (26, 29))
}

// Makes the index at the next search, whatever searches have cost.
fn wants_index(work: &mut Work) {
    work.search_cost = u32::MAX;
}

// Defines forms named by the first letters, as many as are asked for.
fn with_forms<'a>(block: &'a mut [Cell], count: u8) -> Work<'a>
{
    let mut work = Work::over(block);
    push(&mut work, LETTERS);
    for k in 0..count.min(26) {
        define_letter(&mut work, b'A' + k);
    }
    work
}

// Whether the forms are just those of these letters, in this order.
fn are_forms(work: &mut Work, letters: &[u8]) -> bool {
    let mut right = work.forms() as usize == letters.len();
    for k in 0..26u8 {
        let place = letters.iter().position(|letter| *letter == b'A' + k);
        let found = find(work, part(b'A' + k)).map(|form| form.0 as usize);
        right = right && found == place;
    }
    right
}

#[test]
fn index_is_kept() {
    let mut block = [Cell::Gap(7); 800];
    let mut work = with_forms(&mut block, 13);
    let used = work.used();
    wants_index(&mut work);
    assert!(are_forms(&mut work, b"ABCDEFGHIJKLM"));
    assert!(work.space.index_area_len() == 256);
    assert!(work.used() == used);
    let Some(form) = find(&mut work, part(b'B')) else {
        panic!("no form")
    };
    assert!(form.0 < work.forms());
    work.delete(form);
    assert!(are_forms(&mut work, b"ACDEFGHIJKLM"));
    assert!(define_letter(&mut work, b'D'));
    assert!(are_forms(&mut work, b"ACEFGHIJKLMD"));
    assert!(define_letter(&mut work, b'D'));
    assert!(are_forms(&mut work, b"ACEFGHIJKLMD"));
    let Some(form) = find(&mut work, part(b'E')) else {
        panic!("no form")
    };
    segment(&mut work, form, (27, 29), 1);
    assert!(
        form.0 < work.forms()
            && work.body_len(form) == 2
            && matches!(super::item(&work, form, 1), Some(Item::Gap(1)))
    );
    assert!(are_forms(&mut work, b"ACEFGHIJKLMD"));
    assert!(work.space.index_area_len() == 256);
}

#[test]
fn index_is_made_by_searches() {
    let mut block = [Cell::Gap(7); 1200];
    let mut work = with_forms(&mut block, 24);
    let mut made = 0;
    for search in 0..200u32 {
        if made == 0 && work.space.index_area_len() > 0 {
            made = search;
        }
        // eleven forms behind the last one, or before it
        let letter = b'A' + (search * 11 % 24) as u8;
        assert!(find(&mut work, part(letter)).is_some());
    }
    assert!(work.space.index_area_len() == 128);
    // the first searches don't make the index; about as many as it costs do
    assert!(8 < made && made < 100);
}

#[test]
fn index_grows() {
    let mut block = [Cell::Gap(7); 600];
    let mut work = with_forms(&mut block, 12);
    wants_index(&mut work);
    for letter in b"MNOP" {
        assert!(define_letter(&mut work, *letter));
    }
    assert!(work.space.index_area_len() == 64);
    assert!(define_letter(&mut work, b'Q'));
    assert!(work.space.index_area_len() == 128);
    assert!(are_forms(&mut work, b"ABCDEFGHIJKLMNOPQ"));
}

// A larger index would need more than half of the free cells.
#[test]
fn index_is_outgrown_and_cleared() {
    let mut block = [Cell::Gap(7); 400];
    let mut work = with_forms(&mut block, 12);
    wants_index(&mut work);
    for letter in b"MNOP" {
        assert!(define_letter(&mut work, *letter));
    }
    assert!(work.space.index_area_len() == 64);
    assert!(define_letter(&mut work, b'Q'));
    assert!(work.space.index_area_len() == 0);
    assert!(are_forms(&mut work, b"ABCDEFGHIJKLMNOPQ"));
    let Some(form) = find(&mut work, part(b'Q')) else {
        panic!("no form")
    };
    assert!(form.0 < work.forms());
    work.delete(form);
    wants_index(&mut work);
    assert!(are_forms(&mut work, b"ABCDEFGHIJKLMNOP"));
    assert!(work.space.index_area_len() == 128);
    work.delete_all();
    assert!(work.space.index_area_len() == 128);
    assert!(are_forms(&mut work, b""));
    assert!(define_letter(&mut work, b'Z'));
    assert!(are_forms(&mut work, b"Z"));
    // a table far too large for the forms is dropped
    work.delete_all();
    assert!(work.space.index_area_len() == 0);
}

#[test]
fn index_gives_way() {
    let mut block = [Cell::Gap(7); 320];
    let mut work = with_forms(&mut block, 13);
    wants_index(&mut work);
    assert!(are_forms(&mut work, b"ABCDEFGHIJKLM"));
    work.clear_active();
    assert!(work.load_active(b"active"));
    let free = work.free();
    assert!(work.space.index_area_len() == 64 && free == 194);
    for _ in 0..130 {
        assert!(work.push_neutral(Cell::Comma));
    }
    assert!(work.space.index_area_len() == 64);
    for _ in 130..194 {
        assert!(work.push_neutral(Cell::Comma));
        assert!(work.space.index_area_len() == 0);
    }
    assert!(!work.push_neutral(Cell::Comma) && work.free() == 0);
    assert!(are_forms(&mut work, b"ABCDEFGHIJKLM"));
    assert!(work.active_len() == 6);
    assert!(super::are_the_bytes(work.active_part(0, 6), b"active"));
}

#[test]
fn no_index_where_it_does_not_fit_twice() {
    let mut block = [Cell::Gap(7); 247];
    let mut work = with_forms(&mut block, 13);
    assert!(work.free() == 127);
    wants_index(&mut work);
    assert!(are_forms(&mut work, b"ABCDEFGHIJKLM"));
    assert!(work.space.index_area_len() == 0);
    let mut block = [Cell::Gap(7); 248];
    let mut work = with_forms(&mut block, 13);
    wants_index(&mut work);
    assert!(are_forms(&mut work, b"ABCDEFGHIJKLM"));
    assert!(work.space.index_area_len() == 64);
}

#[test]
fn no_index_of_few_forms() {
    let mut block = [Cell::Gap(7); 800];
    let mut work = with_forms(&mut block, 11);
    wants_index(&mut work);
    assert!(are_forms(&mut work, b"ABCDEFGHIJK"));
    assert!(work.space.index_area_len() == 0);
}
