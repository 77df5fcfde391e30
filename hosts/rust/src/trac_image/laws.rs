// Generated from crates/trac_image/src/laws.rt by hosts/rust/generate, and never edited.
//! Laws of images. Each function proves one and does nothing.

/// An image determines all forms of a machine, in their order, with their gaps and pointers, and the meta character: no
/// two memories have the same image.
pub fn image_tells_forms()
{}

/// The image of forms that can stand in a machine is taken by it, and gives the same forms with their gaps and
/// pointers, in their order, and the same meta character.
pub fn saved_forms_are_loaded()
{}
