// Generated from crates/trac_core/src/machine/answering.rt by hosts/rust/generate, and never edited.
//! Calls of no function, before which a machine can stop, and to which its host then gives a value.

use super::Machine;
use super::changing::Refused;
use super::closing::{closed_call, named_at};
use crate::trac_core::delivery::{is_active_call, move_value};
use crate::trac_core::outcome::StepOutcome;
use crate::trac_forms::Work;
use crate::trac_language::Fate;

/// Where the value goes that a host gives to a call.
#[derive(Clone, Copy, Debug, PartialEq, Eq)]
pub enum Delivery {
    /// As the language has it: a value is scanned again after `#(`, and not after `##(` (Mooers 1966).
    ByMode,
    /// The value is scanned again, whatever the call.
    Scanned,
    /// The value is never scanned again, whatever the call: for data from outside.
    Unscanned,
}

impl<'a> Machine<'a> {
    /// Says whether turns, as `advance` makes them, stop before a call whose name is no function, so that the
    /// host can give its value by `answer`. A new machine doesn't stop there: such a call has the null value.
    /// This processor's own choice.
    pub fn stop_at_unknown(&mut self, stops: bool)
    {
        self.stops = stops;
    }

    /// Whether turns stop before the next step, for `stop_at_unknown` asked for that and the step performs a call
    /// whose name is no function.
    pub fn asks(&self) -> bool
    {
        if !self.stops {
            return false;
        }
        if self.fate.is_some() {
            return false;
        }
        if self.steps == self.allowance {
            return false;
        }
        unknown_call(&self.work).is_some()
    }

    /// Makes the next step, which performs a call whose name is no function, and gives the call this value
    /// instead of the null one. `how` says where the value goes. The answer is that of `step`: None if the step
    /// was done. The step needs the cells of all strings and forms but one, and one for each byte of the value. If
    /// these are more than the block has, or the allowance is used up, the run ends. `Refused`, with
    /// nothing changed, if the next step performs no such call, and where the run is over. This
    /// processor's own choice.
    pub fn answer(&mut self, value: &[u8], how: Delivery) -> Result<Option<Fate>, Refused>
    {
        if self.fate.is_some() {
            return Err(Refused);
        }
        let Some(place) = unknown_call(&self.work) else {
            return Err(Refused);
        };
        if self.steps == self.allowance {
            self.fate = Some(Fate::Steps);
            return Ok(self.fate);
        }
        let outcome = end_answered(&mut self.work, place, value, how);
        Ok(self.count(outcome))
    }
}

/// Where the mark stands of the call of no function that a step over these contents performs. None if it performs
/// no call, or one of a function.
fn unknown_call(work: &Work) -> Option<u32>
{
    let Some(place) = closed_call(work) else {
        return None;
    };
    if named_at(work, place).0.is_some() {
        return None;
    }
    Some(place)
}

/// Deletes the right parenthesis that ends the innermost call, whose mark stands at the place, and has the call leave
/// with the value. Where the value doesn't fit, nothing is done.
fn end_answered(work: &mut Work, place: u32, value: &[u8], how: Delivery) -> StepOutcome
{
    if value.len() > work.free() as usize + 1 {
        return StepOutcome {
            fate: Some(Fate::Workspace),
            need: 0,
        };
    }
    let scanned = is_scanned(how, is_active_call(work, place));
    let end = work.neutral_len();
    work.drop_active(1);
    let fits = work.push_bytes(value);
    let need = work.used();
    move_value(work, place, end, scanned);
    StepOutcome { fate: None, need }
}

/// Whether the host's value goes before the active string, where `active` says whether the call is an active one.
fn is_scanned(how: Delivery, active: bool) -> bool
{
    match how {
        Delivery::ByMode => active,
        Delivery::Scanned => true,
        Delivery::Unscanned => false,
    }
}
