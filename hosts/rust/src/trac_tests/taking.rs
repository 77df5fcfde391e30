// Generated from crates/trac_tests/src/taking.rt by hosts/rust/generate, and never edited.
//! What a source holds, taken into the cells of a block.

use crate::{Cell, Source, Work, write_characters};

// No text that the tests take is longer, in bytes.
const LONGEST: u32 = 8;

/// Takes what a source holds, up to an apostrophe, into the cells of a block, and wants this text.
pub fn takes<I: Source>(source: &mut I, block: &mut [Cell], want: &str)
{
    let mut work = Work::over(block);
    source.take_held(b'\'', &mut work);
    let mut room = [0; LONGEST as usize];
    let len = work.neutral_len().min(LONGEST);
    let taken = &mut room[..len as usize];
    write_characters(work.neutral_part(0, len), taken);
    assert!(&*taken == want.as_bytes(), "{want}");
    assert_eq!(work.neutral_len() as usize, want.len(), "{want}");
}
