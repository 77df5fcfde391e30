// Generated from crates/trac_core/src/outcome.rt by hosts/rust/generate, and never edited.
//! The outcome of a step that was tried.
use crate::trac_language::Fate;

/// The outcome of a step that was tried, and the cells that it needed.
#[derive(Clone, Copy, Debug, PartialEq, Eq)]
pub(crate) struct StepOutcome {
    /// How the run ended with it. `None` if the step was done and the run goes on.
    pub(crate) fate: Option<Fate>,
    /// The cells that the step needed. 0 if it was not done because cells or steps were lacking.
    pub(crate) need: u32,
}
