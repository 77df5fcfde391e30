// Generated from crates/trac_core/src/idling.rt by hosts/rust/generate, and never edited.
//! The idling procedure, which a step loads where the active string is empty.

use crate::trac_core::outcome::StepOutcome;
use crate::trac_forms::Work;
use crate::trac_language::{Fate, Mode};
use crate::trac_space::Cell;

/// The idling procedure, which reads and scans a string and
/// prints what is left of it (Mooers 1966).
const IDLING: &[u8; 11] = b"#(ps,#(rs))";

/// What the neutral string holds behind those steps of the idling procedure which come before its two
/// right parentheses.
const BEGUN: &[Cell] = &[
    Cell::Call(Mode::Active, 0),
    Cell::Byte(b'p'),
    Cell::Byte(b's'),
    Cell::Comma,
    Cell::Call(Mode::Active, 0),
    Cell::Byte(b'r'),
    Cell::Byte(b's'),
];

/// How many steps `begin_idling` makes.
pub(crate) const IDLING_STEPS: u64 = 8;

/// The active string is empty: the neutral string is cleared, and the idling procedure becomes the
/// active string, if there are cells for it.
pub(crate) fn load_idling(work: &mut Work) -> StepOutcome
{
    work.clear_neutral();
    if work.load_active(IDLING) {
        StepOutcome {
            fate: None,
            need: work.used(),
        }
    } else {
        StepOutcome {
            fate: Some(Fate::Workspace),
            need: 0,
        }
    }
}

/// Whether `most` steps and the room are enough for `begin_idling`. The active string is empty.
#[inline(always)]
pub(crate) fn may_begin_idling(work: &Work, most: u64) -> bool
{
    most >= IDLING_STEPS && work.free() + work.neutral_len() >= 11
}

/// The active string is empty. The cells that the first of the eight steps of `begin_idling` needs; the others need
/// no more.
#[inline(always)]
pub(crate) fn idling_need(work: &Work) -> u32
{
    work.used() - work.neutral_len() + 11
}

/// The active string is empty. Makes eight steps: the idling procedure is loaded, and its two calls
/// are opened and their names scanned.
#[inline(never)]
pub(crate) fn begin_idling(work: &mut Work)
{
    work.set_strings(BEGUN, b"))");
}
