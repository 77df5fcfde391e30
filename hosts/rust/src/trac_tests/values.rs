// Generated from crates/trac_tests/src/values.rt by hosts/rust/generate, and never edited.
//! Values and laws, by the names that the machine's crate hands on.

use crate::values::{Arith, equal, tail_number};
use crate::{Cell, laws};

const PLUS: Cell = Cell::Byte(b'+');

const MINUS: Cell = Cell::Byte(b'-');

const ONE: Cell = Cell::Byte(b'1');

const TWO: Cell = Cell::Byte(b'2');

const FIVE: Cell = Cell::Byte(b'5');

/// The number at the end of a text, and the length of what stands before it.
fn reads(text: &[Cell], start: u32, value: i128)
{
    let number = tail_number(text);
    assert_eq!((number.start, number.value), (start, Some(value)));
}

#[test]
fn numbers_at_the_end_of_texts() {
    let apples = [
        Cell::Byte(b'A'),
        Cell::Byte(b'p'),
        Cell::Byte(b'p'),
        Cell::Byte(b'l'),
        Cell::Byte(b'e'),
        Cell::Byte(b's'),
        FIVE,
    ];
    reads(&apples, 6, 5);
    let signed = [Cell::Byte(b'x'), MINUS, Cell::Byte(b'0'), Cell::Byte(b'7')];
    reads(&signed, 1, -7);
    reads(&[MINUS, MINUS, FIVE], 1, -5);
    reads(&[PLUS], 1, 0);
    reads(&[ONE, TWO, Cell::Byte(b'a')], 3, 0);
    reads(&[], 0, 0);
}

// 2 to the power 63, which a number of 64 bits can't hold
#[test]
fn a_number_past_64_bits() {
    let digits = [
        Cell::Byte(b'9'),
        TWO,
        TWO,
        Cell::Byte(b'3'),
        Cell::Byte(b'3'),
        Cell::Byte(b'7'),
        TWO,
        Cell::Byte(b'0'),
        Cell::Byte(b'3'),
        Cell::Byte(b'6'),
        Cell::Byte(b'8'),
        FIVE,
        Cell::Byte(b'4'),
        Cell::Byte(b'7'),
        Cell::Byte(b'7'),
        FIVE,
        Cell::Byte(b'8'),
        Cell::Byte(b'0'),
        Cell::Byte(b'8'),
    ];
    reads(&digits, 0, 9_223_372_036_854_775_808);
}

#[test]
fn values_by_their_public_names() {
    assert!(equal(&[ONE, TWO], &[ONE, TWO]));
    assert!(!equal(&[ONE, TWO], &[TWO]));
    assert_eq!(Arith::Add.apply(5, 7), Some(12));
}

// A law has no effect; what it says is proved.
#[test]
fn laws_by_their_public_names() {
    laws::more_room();
    laws::more_steps();
    laws::least_room();
    laws::quoted();
}
