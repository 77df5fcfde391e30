// Generated from crates/trac_laws/src/lib.rt by hosts/rust/generate, and never edited.
//! Laws of the definition: what the room and the allowance of a whole run decide, and what single steps do.
//! Each function proves its law and does nothing. No program runs any of it: the crate exists for the prover.

mod table;

pub use table::{
    chooses, ends_only, gives_default, gives_forms, leaves_forms, leaves_input, leaves_meta,
    leaves_others, needs_form, prints_nothing, uses_few,
};

/// A run whose fate isn't `Workspace` is the same in every larger room.
pub fn more_room()
{}

/// A run whose fate isn't `Steps` is the same with every larger allowance. With an allowance below its
/// steps it has the fate `Steps` and a prefix of the output.
pub fn more_steps()
{}

/// The peak of a run whose fate isn't `Workspace` is the smallest room in which it is the same, in cells. It
/// is the same in every larger room; in a smaller one it has the fate `Workspace` and a prefix of the
/// output.
pub fn least_room()
{}

/// If a script quotes and prints a text with balanced parentheses and no apostrophe, the output is that
/// text. The run takes 25 steps, and its peak is 16 cells more than the text has.
pub fn quoted()
{}

/// At most one part of a text is protected at its beginning: the one up to the matching right parenthesis.
/// If there is one, a step takes it (Mooers 1966).
pub fn one_protected()
{}

/// A step keeps the names of forms distinct and each pointer within its form's body.
pub fn forms_kept()
{}

/// A step that doesn't read to the end of its input reads no further than what it takes. With more input
/// behind it, whatever its end, the step does the same, needs the same cells, and leaves that input there.
pub fn reads_no_further()
{}

/// Exactly one rule of scanning fits the active string (Mooers 1966), and a step does what that rule says.
pub fn one_rule_fits()
{}
