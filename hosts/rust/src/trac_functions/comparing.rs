// Generated from crates/trac_functions/src/comparing.rt by hosts/rust/generate, and never edited.
//! The functions that compare: `eq` and `gr`.

use crate::trac_functions::arguments::{Arguments, CallResult, give, text};
use crate::trac_forms::Work;

/// `eq,A,B,X,Y`: X where A and B are the same text, else Y (Mooers 1966).
pub fn equal(work: &mut Work, mut arguments: Arguments) -> CallResult
{
    let scanned = arguments.scanned;
    let first = arguments.next(work);
    let second = arguments.next(work);
    let same = arguments.next(work);
    let other = arguments.next(work);
    let value = if crate::trac_values::equal(text(work, first), text(work, second)) {
        same
    } else {
        other
    };
    give(work, value, scanned)
}

/// `gr,N1,N2,X,Y`: X where the number of N1 is greater than that of N2, else Y (Mooers 1966). That
/// the numbers may have any length is this processor's own choice.
pub fn greater(work: &mut Work, mut arguments: Arguments) -> CallResult
{
    let scanned = arguments.scanned;
    let first = arguments.next(work);
    let second = arguments.next(work);
    let larger = arguments.next(work);
    let other = arguments.next(work);
    let value = if crate::trac_values::greater(text(work, first), text(work, second)) {
        larger
    } else {
        other
    };
    give(work, value, scanned)
}
