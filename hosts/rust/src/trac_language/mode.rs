// Generated from crates/trac_language/src/mode.rt by hosts/rust/generate, and never edited.
//! The two ways in which a call is opened.

/// What becomes of the value of a call (Mooers 1966).
#[derive(Clone, Copy, PartialEq, Eq, Debug)]
pub enum Mode {
    /// Opened by `#(`: the value goes to the front of the active string, and is scanned.
    Active,
    /// Opened by `##(`: the value goes to the end of the neutral string.
    Neutral,
}
