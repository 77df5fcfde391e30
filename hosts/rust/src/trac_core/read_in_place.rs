// Generated from crates/trac_core/src/read_in_place.rt by hosts/rust/generate, and never edited.
//! The string of the idling procedure: it is read where the scanner would move the characters that it begins with.

use crate::trac_core::outcome::StepOutcome;
use crate::trac_core::runs::ordinary_characters;
use crate::trac_core::streaming::{ReadEnd, read_text};
use crate::trac_devices::Source;
use crate::trac_forms::Work;
use crate::trac_functions::arguments::text;
use crate::trac_language::{Fate, Mode};
use crate::trac_space::{Cell, Part};

/// What the neutral string holds before the string of the idling procedure: the call of `ps`, which prints it.
const BEFORE_STRING: &[Cell] = &[
    Cell::Call(Mode::Active, 0),
    Cell::Byte(b'p'),
    Cell::Byte(b's'),
    Cell::Comma,
];

/// How many cells these are.
pub(crate) const STRING_FROM: u32 = 4;

// What the active string holds while the string is read: a blank for each cell of the call of `rs`, so that no more
// cells are free than before it is performed, and the parenthesis that ends the call of `ps`.
const BEHIND_STRING: &[u8] = b"   )";

const BLANKS: u32 = 3;

/// The active string is empty, and there is room for `begin_idling`. After its steps, performs the call of `rs`, and
/// scans the ordinary characters that its value begins with, at most `most`.
#[inline(never)]
pub(crate) fn read_in_place<I: Source>(
    work: &mut Work,
    most: u64,
    meta: u8,
    source: &mut I,
) -> StepOutcome
{
    work.set_strings(BEFORE_STRING, BEHIND_STRING);
    match read_text(work, meta, source) {
        ReadEnd::Meta => scan_string(work, most),
        ReadEnd::Ended if work.neutral_len() > STRING_FROM => scan_string(work, most),
        ReadEnd::Ended => StepOutcome {
            fate: Some(Fate::InputEnded),
            need: work.used(),
        },
        ReadEnd::Failed => StepOutcome {
            fate: Some(Fate::InputFailed),
            need: work.used(),
        },
        ReadEnd::Full => StepOutcome {
            fate: Some(Fate::Workspace),
            need: 0,
        },
    }
}

/// The string was read, and the call of `rs` is done: takes the blanks away, and leaves in the neutral string the
/// ordinary characters that the string begins with, at most `most`; the others move to the active string.
fn scan_string(work: &mut Work, most: u64) -> StepOutcome
{
    let need = work.used();
    work.drop_active(BLANKS);
    let len = work.neutral_len() - STRING_FROM;
    if len > 0 {
        let reach = STRING_FROM + most.min(u64::from(len)) as u32;
        let part = Part {
            from: STRING_FROM,
            to: reach,
        };
        let count = ordinary_characters(text(work, part));
        work.neutral_to_active(STRING_FROM + count);
    }
    StepOutcome { fate: None, need }
}
