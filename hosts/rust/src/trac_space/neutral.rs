// Generated from crates/trac_space/src/neutral.rt by hosts/rust/generate, and never edited.
//! What a source sees of a machine: a neutral string to which it can append bytes.

/// A value with a neutral string, to which a source can append the bytes that it holds. A source sees
/// nothing else of the machine that reads from it. This processor's own choice.
pub trait Neutral {
    /// Appends the bytes of `text` before its first `stop` to the neutral string, as many as fit, and
    /// gives how many it appended. Each takes one cell.
    fn push_before(&mut self, stop: u8, text: &[u8]) -> usize;
}
