// Generated from crates/trac_core/src/machine/session.rt by hosts/rust/generate, and never edited.
//! Sessions: a machine that is looked at, fed in pieces and used again.

use super::Machine;
use super::closing::{closed_call, named_at};
use crate::trac_forms::{Cell, Forms, StoredForm, Work};
use crate::trac_language::{Function, Report};

/// What the next step of a machine reads.
#[derive(Clone, Copy, Debug, PartialEq, Eq)]
pub enum Awaits {
    /// It reads nothing, or there is no next step: the run is over, or the allowance is used up.
    Nothing,
    /// It performs `rs`: it reads a string up to the meta character, or to the end.
    Text,
    /// It performs `rc`: it reads one byte.
    Byte,
}

impl<'a> Machine<'a> {
    /// Clears both strings, with the calls that are open, and begins a new run that may make `steps`
    /// steps. The run isn't over then; the steps and the peak count from 0. The forms with their
    /// pointers, the meta character and the block stay. This processor's own choice.
    pub fn again(&mut self, steps: u64)
    {
        self.work.clear_active();
        self.work.clear_neutral();
        self.allowance = steps;
        self.steps = 0;
        self.peak = 0;
        self.fate = None;
    }

    /// How the run ended, with its steps and its peak. `None` while it goes on. This processor's own
    /// choice.
    pub fn report(&self) -> Option<Report>
    {
        match self.fate {
            None => None,
            Some(fate) => Some(self.report_with(fate)),
        }
    }

    /// The meta character, which ends a string that `rs` reads (Mooers 1966).
    pub fn meta(&self) -> u8
    {
        self.meta
    }

    /// The forms, to be looked at in the order in which they were defined.
    pub fn forms(&self) -> Forms<'_>
    {
        self.work.listed()
    }

    /// The form at place `k`, from 0, in the order in which the forms were defined, to be looked at.
    /// `None` past the last.
    pub fn form(&self, k: u32) -> Option<StoredForm<'_>>
    {
        self.work.listed_at(k)
    }

    /// The form whose name is these characters, a cell for each, to be looked at. `None` if no form
    /// has the name. The machine finds it as its own calls find forms, so that it need not look at each.
    pub fn form_named(&self, name: &[Cell]) -> Option<StoredForm<'_>>
    {
        self.work.stored_named(name)
    }

    /// Keeps in mind where the form at place `k` begins, so that `form` needs no walk over those before
    /// it: forms that are looked at in turn then cost one walk in all. Nothing that can be seen changes.
    pub fn turn_to_form(&mut self, k: u32)
    {
        let _ = self.work.form(k);
    }

    /// What the next step reads. Where it is `Text` a host may wait for the meta character, and
    /// where it is `Byte` for one byte, before it makes that step. This processor's own choice.
    pub fn awaits(&self) -> Awaits
    {
        match self.next_function() {
            Some(Function::ReadString) => Awaits::Text,
            Some(Function::ReadCharacter) => Awaits::Byte,
            _ => Awaits::Nothing,
        }
    }

    /// The function that the next step performs. `None` if it performs no call, or one whose name
    /// no function has, and where there is no next step: the run is over, or the allowance is used up.
    /// This processor's own choice.
    pub fn next_function(&self) -> Option<Function>
    {
        if self.fate.is_none() && self.steps < self.allowance {
            performed(&self.work)
        } else {
            None
        }
    }
}

/// The function that a step over these contents performs.
fn performed(work: &Work) -> Option<Function>
{
    match closed_call(work) {
        None => None,
        Some(place) => named_at(work, place).0,
    }
}
