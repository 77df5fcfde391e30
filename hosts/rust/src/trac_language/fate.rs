// Generated from crates/trac_language/src/fate.rt by hosts/rust/generate, and never edited.
//! How runs end.

/// How a run ended. The fates and their numbers are this processor's own choice.
#[derive(Clone, Copy, Debug, PartialEq, Eq)]
pub enum Fate {
    /// A call of `hl` was performed.
    Halted = 1,
    /// The input was at its end when a call asked for more.
    InputEnded = 2,
    /// A step needed more cells than the room.
    Workspace = 3,
    /// The allowance of steps was used up.
    Steps = 4,
    /// The source failed.
    InputFailed = 5,
    /// The sink failed.
    OutputFailed = 6,
}
