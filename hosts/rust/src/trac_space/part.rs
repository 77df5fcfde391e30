// Generated from crates/trac_space/src/part.rt by hosts/rust/generate, and never edited.
//! A part of a list of cells.

/// The cells of a list from place `from` up to place `to`, which is the first behind them.
#[derive(Clone, Copy, Debug)]
pub struct Part {
    pub from: u32,
    pub to: u32,
}
