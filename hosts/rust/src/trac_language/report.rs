// Generated from crates/trac_language/src/report.rt by hosts/rust/generate, and never edited.
//! The result of a run.

use crate::trac_language::fate::Fate;

/// The result of a run. The accounting of steps and cells is this processor's own choice.
#[derive(Clone, Copy, Debug, PartialEq, Eq)]
pub struct Report {
    /// How the run ended.
    pub fate: Fate,
    /// How many steps the run did.
    pub steps: u64,
    /// The greatest need of a step, in cells: the smallest room in which the run ends the same way.
    pub peak: u32,
}
