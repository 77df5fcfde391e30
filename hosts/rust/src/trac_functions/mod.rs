// Generated from crates/trac_functions/src/lib.rt by hosts/rust/generate, and never edited.
//! The functions of the language that touch no device: their arguments, and what each makes of a
//! call.
//!
//! What a function makes of its arguments is Mooers' (1966 and 1972), where the sources say it.
//! What a call needs in cells, and each case that they leave open, is this processor's own choice.

pub mod arguments;
pub mod arithmetic;
pub mod bit_strings;
pub mod comparing;
pub mod form_calls;
pub mod form_parts;
pub mod function;
mod writing;
