// Generated from crates/trac_forms/src/tests/occurrences.rt by hosts/rust/generate, and never edited.
//! Where a text occurs in a body: with room for its borders, and without.
use super::{define, find, occurrence, push, segment};
use crate::trac_forms::{Cell, Work};

// Where the text first stands in the body from a place on. Each minus sign of the body is a gap. If the
// block is to be full, no cell is free.
fn first_place(work: &mut Work, body: &[u8], text: &[u8], from: u32, full: bool) -> Option<u32> {
    work.delete_all();
    work.clear_neutral();
    push(work, b"-");
    push(work, body);
    let end = work.neutral_len();
    push(work, text);
    let all = work.neutral_len();
    if !define(work, (0, 1), (1, end)) {
        return None;
    }
    let form = find(work, (0, 1))?;
    segment(work, form, (0, 1), 1);
    if full {
        for _ in 0..100u32 {
            work.push_neutral(Cell::Comma);
        }
    }
    match occurrence(work, form, from, (end, all)) {
        Some((begin, _end)) => Some(begin),
        None => None,
    }
}

// Whether it stands there first, both ways.
fn stands_first(work: &mut Work, body: &[u8], text: &[u8], from: u32, place: Option<u32>) -> bool {
    first_place(work, body, text, from, false) == place
        && first_place(work, body, text, from, true) == place
}

#[test]
fn long_texts() {
    let mut block = [Cell::Gap(7); 100];
    let mut work = Work::over(&mut block);
    let work = &mut work;
    assert!(stands_first(work, b"aaaaaaaaaaaab", b"aaaaaaaab", 0, Some(4)));
    assert!(stands_first(work, b"aaaaaaaaaaaab", b"aaaaaaaab", 4, Some(4)));
    assert!(stands_first(work, b"aaaaaaaaaaaab", b"aaaaaaaab", 5, None));
    assert!(stands_first(work, b"aaaaaaaaaaaaa", b"aaaaaaaab", 0, None));
    assert!(stands_first(work, b"abababababac", b"abababac", 0, Some(4)));
    assert!(stands_first(work, b"aabaabaabaaa", b"aabaabaaa", 0, Some(3)));
    assert!(stands_first(work, b"xyzabcabcabd", b"abcabcabd", 0, Some(3)));
    assert!(stands_first(work, b"abcabcab", b"abcabcab", 0, Some(0)));
    assert!(stands_first(work, b"abcdefghabcdefgh", b"abcdefgh", 1, Some(8)));
    // longer than the body
    assert!(stands_first(work, b"aaaaaaaa", b"aaaaaaaaa", 0, None));
    // eight, a gap, and nine
    assert!(stands_first(work, b"aaaaaaaa-aaaaaaaaa", b"aaaaaaaaa", 0, Some(9)));
    assert!(stands_first(work, b"aaaaaaaa-aaaaaaaaa", b"aaaaaaaaa", 10, None));
    assert!(stands_first(work, b"aaaaaaaa-aaaaaaaa-", b"aaaaaaaaa", 0, None));
}
