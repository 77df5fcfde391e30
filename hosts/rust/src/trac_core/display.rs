// Generated from crates/trac_core/src/display.rt by hosts/rust/generate, and never edited.
//! The display of a form, and the function that prints it: `pf`.

use crate::trac_core::streaming::put_characters;
use crate::trac_devices::{Characters, Sink, SinkFailed, decimal_len};
use crate::trac_forms::{StoredForm, Work};
use crate::trac_functions::arguments::{Arguments, CallResult};
use crate::trac_language::{Fate, Function, Item};
use crate::trac_space::Part;

/// `pf,N`: the form N is displayed, and the sink flushed once: its characters as they are, each gap
/// as its ordinal in angle brackets, and `<^>` at the pointer. A form that isn't defined prints
/// nothing. The display is this processor's own choice.
pub(crate) fn print_form<O: Sink>(
    work: &mut Work,
    mut arguments: Arguments,
    sink: &mut O,
) -> CallResult
{
    let name = arguments.next(work);
    match show_named(work, name, sink) {
        Ok(()) => CallResult::Null(0),
        Err(_) => CallResult::Over(Fate::OutputFailed),
    }
}

/// Displays the form whose name is a part of the neutral string, where there is one.
fn show_named<O: Sink>(work: &mut Work, name: Part, sink: &mut O) -> Result<(), SinkFailed>
{
    match work.find(name.from, name.to) {
        Some(form) => show_and_flush(&work.stored(form), sink),
        None => Ok(()),
    }
}

/// Puts the display of a form into a sink, and then flushes it.
fn show_and_flush<O: Sink>(form: &StoredForm, sink: &mut O) -> Result<(), SinkFailed>
{
    show_form(form, sink)?;
    sink.flush()
}

/// Puts the display of a form into a sink, as `pf` prints it: its characters as they
/// are, each gap as its ordinal in angle brackets, and `<^>` at the pointer. It doesn't flush. An
/// error is the sink's: a first part of the display was then put. The display is this processor's
/// own choice.
pub fn show_form<O: Sink>(form: &StoredForm, sink: &mut O) -> Result<(), SinkFailed>
{
    let pointer = form.pointer();
    show_items(form, 0, pointer, sink)?;
    sink.put_bytes(b"<^>")?;
    show_items(form, pointer, form.body_len(), sink)
}

/// Puts the display of the items of a form from a place up to another into a sink.
fn show_items<O: Sink>(
    form: &StoredForm,
    from: u32,
    to: u32,
    sink: &mut O,
) -> Result<(), SinkFailed>
{
    let mut place = from;
    while place < to {
        place = show_next(form, place, to, sink)?;
    }
    Ok(())
}

/// Puts the display of the characters in a row from a place of a form on into a sink, or of the gap that
/// stands there, and gives the place behind. It ends at place `to`, or before.
#[inline(always)]
fn show_next<O: Sink>(
    form: &StoredForm,
    place: u32,
    to: u32,
    sink: &mut O,
) -> Result<u32, SinkFailed>
{
    let item = form.item(place);
    if is_byte(item) {
        let run = form.run(place, to);
        put_characters(&Characters::new(run), sink)?;
        return Ok(place + run.len() as u32);
    }
    show_item(item, sink)?;
    Ok(place + 1)
}

/// Whether an item is a character.
#[inline(always)]
fn is_byte(item: Option<Item>) -> bool
{
    match item {
        Some(Item::Byte(_)) => true,
        Some(Item::Gap(_)) => false,
        None => false,
    }
}

/// Puts the display of an item into a sink, where there is one.
#[inline(always)]
fn show_item<O: Sink>(item: Option<Item>, sink: &mut O) -> Result<(), SinkFailed>
{
    match item {
        Some(Item::Byte(byte)) => sink.put(byte),
        Some(Item::Gap(ordinal)) => show_gap(ordinal, sink),
        None => Ok(()),
    }
}

/// Puts an ordinal in angle brackets into a sink.
fn show_gap<O: Sink>(ordinal: u32, sink: &mut O) -> Result<(), SinkFailed>
{
    sink.put(b'<')?;
    sink.put_number(ordinal)?;
    sink.put(b'>')
}

/// How many bytes the display of a form has, which `show_form` puts into a sink.
pub fn display_len(form: &StoredForm) -> u32
{
    let mut len = 3;
    let mut place = 0;
    while place < form.body_len() {
        let (more, next) = next_len(form, place);
        len += more;
        place = next;
    }
    len
}

/// How many bytes the display of the characters in a row from a place of a form on has, or of the gap that
/// stands there, and the place behind.
#[inline(always)]
fn next_len(form: &StoredForm, place: u32) -> (u32, u32)
{
    let end = form.body_len();
    let item = form.item(place);
    if is_byte(item) {
        let len = form.run(place, end).len() as u32;
        return (len, place + len);
    }
    (item_len(item), place + 1)
}

/// How many bytes the display of an item has, 0 if there is none.
#[inline(always)]
fn item_len(item: Option<Item>) -> u32
{
    match item {
        Some(Item::Byte(_)) => 1,
        Some(Item::Gap(ordinal)) => 2 + decimal_len(ordinal),
        None => 0,
    }
}
