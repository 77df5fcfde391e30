// Generated from crates/trac_functions/src/form_parts.rt by hosts/rust/generate, and never edited.
//! The functions that take a part of a form: `cs`, `cc`, `cn`, `in`, and `cr`. If no form has the name N,
//! they change nothing and have a null value, which is this processor's own choice.

use crate::trac_functions::arguments::{Arguments, CallResult, give, put_part, text};
use crate::trac_forms::{FormId, Work};
use crate::trac_language::Item;
use crate::trac_space::Part;
use crate::trac_values::{Count, count_of};

/// `cs,N,Z`: the characters from the pointer up to the next gap, or to the end where no gap
/// follows; the pointer goes past that gap (Mooers 1966). With the pointer at the end Z is the
/// value, and goes to the active string whatever the call's mode; a form that isn't defined gives a
/// null value (this processor's own choice).
pub fn call_segment(work: &mut Work, mut arguments: Arguments) -> CallResult
{
    let name = arguments.next(work);
    let default = arguments.next(work);
    match work.find(name.from, name.to) {
        Some(form) => take_segment(work, form, default),
        None => CallResult::AtEnd,
    }
}

/// Takes the characters up to the next gap.
fn take_segment(work: &mut Work, form: FormId, default: Part) -> CallResult
{
    let from = work.pointer(form);
    let end = work.body_len(form);
    if from == end {
        return give(work, default, true);
    }
    match work.next_gap(form, from) {
        Some(gap) => take_part(work, form, Part { from, to: gap }, gap + 1),
        None => take_part(work, form, Part { from, to: end }, end),
    }
}

/// `cc,N,Z`: the next character after the pointer, gaps skipped;
/// the pointer goes behind it (Mooers 1966). Z as for `cs`.
pub fn call_character(work: &mut Work, mut arguments: Arguments) -> CallResult
{
    let name = arguments.next(work);
    let default = arguments.next(work);
    match work.find(name.from, name.to) {
        Some(form) => take_character(work, form, default),
        None => CallResult::AtEnd,
    }
}

/// Takes the next character after the pointer.
fn take_character(work: &mut Work, form: FormId, default: Part) -> CallResult
{
    if work.take_character(form) {
        return CallResult::AtEnd;
    }
    take_later_character(work, form, default)
}

/// Takes the next character after the pointer, which may stand behind gaps.
fn take_later_character(work: &mut Work, form: FormId, default: Part) -> CallResult
{
    let from = work.pointer(form);
    match work.next_char(form, from) {
        Some(place) => take_one(work, form, place),
        None => give(work, default, true),
    }
}

/// Takes the character at a place of the body; the pointer goes behind it.
fn take_one(work: &mut Work, form: FormId, place: u32) -> CallResult
{
    if !copy_character(work, form, place) {
        return CallResult::Full;
    }
    work.set_pointer(form, place + 1);
    CallResult::AtEnd
}

/// Puts the character at a place of the body at the end of the neutral string, if there is a cell
/// for it.
fn copy_character(work: &mut Work, form: FormId, place: u32) -> bool
{
    work.copy_body(form, place, place + 1)
}

/// `cn,N,D,Z`: the next D characters, or the last -D before the pointer where D is negative, gaps
/// skipped; the pointer goes to the other side of them (Mooers 1966). All of them where there are
/// fewer; D has any length; D = 0 gives a null value; Z as for `cs` (this processor's own choice).
pub fn call_number(work: &mut Work, mut arguments: Arguments) -> CallResult
{
    let name = arguments.next(work);
    let number = arguments.next(work);
    let default = arguments.next(work);
    let count = count_of(text(work, number));
    match work.find(name.from, name.to) {
        Some(form) => take_characters(work, form, count, default),
        None => CallResult::AtEnd,
    }
}

/// Takes `count` characters of a form, forward from its pointer or backward.
fn take_characters(work: &mut Work, form: FormId, count: Count, default: Part) -> CallResult
{
    if count.size == 0 {
        let pointer = work.pointer(form);
        let null = Part {
            from: pointer,
            to: pointer,
        };
        take_part(work, form, null, pointer)
    } else if count.negative {
        take_backward(work, form, count.size, default)
    } else {
        take_forward(work, form, count.size, default)
    }
}

/// Takes the next `count` characters after the pointer.
fn take_forward(work: &mut Work, form: FormId, count: u32, default: Part) -> CallResult
{
    let from = work.pointer(form);
    let to = place_after(work, form, from, count);
    if to == from {
        return give(work, default, true);
    }
    take_part(work, form, Part { from, to }, to)
}

/// Takes the last `count` characters before the pointer.
fn take_backward(work: &mut Work, form: FormId, count: u32, default: Part) -> CallResult
{
    let to = work.pointer(form);
    let from = place_before(work, form, to, count);
    if from == to {
        return give(work, default, true);
    }
    take_part(work, form, Part { from, to }, from)
}

/// The place after the next `count` characters from `from` on, or after all of them if there are fewer.
fn place_after(work: &Work, form: FormId, from: u32, count: u32) -> u32
{
    let mut place = from;
    for _taken in 0..count {
        match work.next_char(form, place) {
            Some(character) => place = character + 1,
            None => return place,
        }
    }
    place
}

/// The place of the first of the last `count` characters before `to`, or of the first of all of them if there
/// are fewer.
fn place_before(work: &Work, form: FormId, to: u32, count: u32) -> u32
{
    let mut place = to;
    for _taken in 0..count {
        match work.previous_char(form, place) {
            Some(character) => place = character,
            None => return place,
        }
    }
    place
}

/// Takes the characters of a part of the body, and moves the pointer.
fn take_part(work: &mut Work, form: FormId, part: Part, pointer: u32) -> CallResult
{
    if !copy_characters(work, form, part.from, part.to) {
        return CallResult::Full;
    }
    work.set_pointer(form, pointer);
    CallResult::AtEnd
}

/// Copies the characters of a form's body from place `from` up to `to` to the end of the neutral string,
/// gaps left out. False if they don't fit; then no form has changed, but some of them may stand there.
pub fn copy_characters(work: &mut Work, form: FormId, from: u32, to: u32) -> bool
{
    let mut place = from;
    while place < to {
        let start = character_or(work, form, place, to);
        let end = gap_or(work, form, start, to);
        if !work.copy_body(form, start, end) {
            return false;
        }
        place = end;
    }
    true
}

/// The place of the first character from one place up to another, or that other place.
fn character_or(work: &Work, form: FormId, from: u32, to: u32) -> u32
{
    match work.next_char(form, from) {
        Some(place) => place.min(to),
        None => to,
    }
}

/// The place of the first gap from one place up to another, or that other place.
fn gap_or(work: &Work, form: FormId, from: u32, to: u32) -> u32
{
    for place in from..to {
        if let Item::Gap(_) = work.item(form, place) {
            return place;
        }
    }
    to
}

/// `in,N,X,Z`: the characters from the pointer up to the first occurrence of X, which reaches
/// across no gap; the pointer goes past it (Mooers 1966). Z where there is none, and a null value
/// for a null X (this processor's own choice).
pub fn initial_part(work: &mut Work, mut arguments: Arguments) -> CallResult
{
    let name = arguments.next(work);
    let sought = arguments.next(work);
    let default = arguments.next(work);
    match work.find(name.from, name.to) {
        Some(form) => take_initial(work, form, sought, default),
        None => CallResult::AtEnd,
    }
}

/// Takes the characters up to the first occurrence of a text.
fn take_initial(work: &mut Work, form: FormId, sought: Part, default: Part) -> CallResult
{
    let pointer = work.pointer(form);
    if sought.from == sought.to {
        let null = Part {
            from: pointer,
            to: pointer,
        };
        return take_part(work, form, null, pointer);
    }
    match work.occurrence(form, pointer, (sought.from, sought.to)) {
        Some((begin, end)) => {
            let before = Part {
                from: pointer,
                to: begin,
            };
            take_part(work, form, before, end)
        }
        None => give(work, default, true),
    }
}

/// `cr,N`: the pointer goes back to the start (Mooers 1966).
pub fn call_restore(work: &mut Work, mut arguments: Arguments) -> CallResult
{
    let name = arguments.next(work);
    if let Some(form) = work.find(name.from, name.to) {
        work.set_pointer(form, 0);
    }
    CallResult::AtEnd
}
