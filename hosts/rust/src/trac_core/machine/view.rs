// Generated from crates/trac_core/src/machine/view.rt by hosts/rust/generate, and never edited.
//! What a caller who drives a machine step by step may look at.

use super::Machine;
use crate::trac_core::rules::{ScanningRule, is_in, rule_of};
use crate::trac_core::runs::matching;
use crate::trac_core::scan::{characters, is_at};
use crate::trac_forms::{Cell, Work};

impl<'a> Machine<'a> {
    /// The cells of the block.
    pub fn room(&self) -> u32
    {
        self.work.room()
    }

    /// The cells of both strings and of all forms.
    pub fn size(&self) -> u32
    {
        self.work.used()
    }

    /// The active string, a cell for each character, the next one first.
    pub fn active(&self) -> &[Cell]
    {
        characters(&self.work)
    }

    /// The neutral string: the base text, and then for each open call its
    /// mark and its arguments with a comma mark between two, the outermost
    /// call first. The number in a call mark is of no use to a caller.
    pub fn neutral(&self) -> &[Cell]
    {
        self.work.neutral_part(0, self.work.neutral_len())
    }

    /// The rule that the next step follows, unless the run is over or ends before it.
    pub fn next_rule(&self) -> ScanningRule
    {
        rule_of(characters(&self.work))
    }

    /// How many characters the next step takes from the front of the active string: those that open a
    /// call, a text in parentheses with both of them, and else one. All, where it begins with a left
    /// parenthesis that has no match; none, where it is empty. The rules are Mooers' (1966).
    pub fn takes(&self) -> u32
    {
        taken_from(characters(&self.work)) as u32
    }

    /// How many steps come before the next one that follows the rule of a right parenthesis or that of
    /// an empty active string, at most `most`: none of them performs a call. They are counted as if the
    /// allowance had no end, and nothing is changed. This processor's own choice.
    pub fn steps_to_call(&self, most: u64) -> u64
    {
        steps_before_call(characters(&self.work), most)
    }

    /// How many characters the next step drops: all of the active string, where it begins with a left
    /// parenthesis that has no match there (this processor's own choice), and else none. What other
    /// rules delete, as layout, doesn't count.
    pub fn drops(&self) -> u32
    {
        dropped_from(&self.work)
    }

    /// The peak, in cells, which then counts from 0 again:
    /// called after each step it tells what that step needed.
    pub fn take_peak(&mut self) -> u32
    {
        let peak = self.peak;
        self.peak = 0;
        peak
    }
}

/// How many characters of the active string a step over these contents drops.
fn dropped_from(work: &Work) -> u32
{
    if !is_at(work, 0, b'(') {
        return 0;
    }
    match matching(work.active_part(1, work.active_len())) {
        Some(_) => 0,
        None => work.active_len(),
    }
}

/// How many characters a step takes from the front of an active string.
fn taken_from(active: &[Cell]) -> usize
{
    if !is_in(active, 0, b'(') {
        return taken_in_row(rule_of(active));
    }
    match matching(&active[1..]) {
        Some(len) => len as usize + 2,
        None => active.len(),
    }
}

/// How many characters a step takes by a rule of a row, where that protects no text.
fn taken_in_row(row: ScanningRule) -> usize
{
    match row {
        ScanningRule::Idling => 0,
        ScanningRule::ActiveCall => 2,
        ScanningRule::NeutralCall => 3,
        _ => 1,
    }
}

/// How many steps over an active string come before one by the rule of a right parenthesis or of an
/// empty string, at most `most`.
fn steps_before_call(active: &[Cell], most: u64) -> u64
{
    let mut place = 0;
    let mut steps = 0;
    while steps < most {
        let rest = &active[place..];
        if stops_before(rule_of(rest)) {
            return steps;
        }
        place += taken_from(rest);
        steps += 1;
    }
    steps
}

/// Whether a step by a rule of a row may perform a call, or loads the idling procedure.
fn stops_before(row: ScanningRule) -> bool
{
    matches!(row, ScanningRule::EndOfCall | ScanningRule::Idling)
}
