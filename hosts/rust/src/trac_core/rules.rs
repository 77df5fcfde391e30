// Generated from crates/trac_core/src/rules.rt by hosts/rust/generate, and never edited.
//! The table of scanning rules (Mooers 1966): which one fits the beginning of the active string. The
//! scanner, the look for runs of characters and what a machine shows of itself all go by it.

use crate::trac_space::{Cell, byte_in};

/// The rows of the table of scanning rules: the beginning of the active string decides what a step does
/// (Mooers 1966).
#[derive(Clone, Copy, Debug, PartialEq, Eq)]
pub enum ScanningRule {
    /// The active string is empty: the idling procedure is loaded.
    Idling,
    /// A tab, a line feed or a carriage return is deleted.
    Layout,
    /// A left parenthesis: the text up to its match is taken
    /// over; without a match the active string becomes empty.
    Protection,
    /// A comma: an argument begins.
    Argument,
    /// A number sign and a left parenthesis open an active call.
    ActiveCall,
    /// Two number signs and a left parenthesis open a neutral call.
    NeutralCall,
    /// A number sign that opens no call is added.
    NumberSign,
    /// A right parenthesis: the innermost call is performed.
    EndOfCall,
    /// Any other character is added.
    Character,
}

/// The rule that fits the beginning of an active string.
#[inline(always)]
pub(crate) fn rule_of(active: &[Cell]) -> ScanningRule
{
    match active.first() {
        None => ScanningRule::Idling,
        Some(first) => rule_at(active, byte_in(first)),
    }
}

/// The rule that fits an active string that begins with this character.
#[inline(always)]
fn rule_at(active: &[Cell], first: u8) -> ScanningRule
{
    match rule_by_first(first) {
        ScanningRule::NumberSign => number_sign_rule(active),
        rule => rule,
    }
}

/// The rule that fits each active string that begins with this character; of a number sign, which
/// may open a call, that of one which opens none.
#[inline(always)]
pub(crate) fn rule_by_first(character: u8) -> ScanningRule
{
    match character {
        b'\t' => ScanningRule::Layout,
        b'\n' => ScanningRule::Layout,
        b'\r' => ScanningRule::Layout,
        b'(' => ScanningRule::Protection,
        b')' => ScanningRule::EndOfCall,
        b',' => ScanningRule::Argument,
        b'#' => ScanningRule::NumberSign,
        _ => ScanningRule::Character,
    }
}

/// The rule where a number sign stands first.
#[inline(always)]
fn number_sign_rule(active: &[Cell]) -> ScanningRule
{
    if is_in(active, 1, b'(') {
        ScanningRule::ActiveCall
    } else if is_in(active, 1, b'#') && is_in(active, 2, b'(') {
        ScanningRule::NeutralCall
    } else {
        ScanningRule::NumberSign
    }
}

/// Whether a character stands at a place of an active string.
#[inline(always)]
pub(crate) fn is_in(active: &[Cell], place: usize, byte: u8) -> bool
{
    match active.get(place) {
        Some(cell) => byte_in(cell) == byte,
        None => false,
    }
}
