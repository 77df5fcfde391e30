// Generated from crates/trac_functions/src/writing.rt by hosts/rust/generate, and never edited.
//! Characters that are put at the end of the neutral string.

use crate::trac_forms::Work;

/// Appends characters to the neutral string. The caller has made sure that they fit.
pub fn put_bytes(work: &mut Work, bytes: &[u8])
{
    work.push_bytes(bytes);
}
