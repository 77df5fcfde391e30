// Generated from crates/trac_image/src/loading.rt by hosts/rust/generate, and never edited.
//! Takes an image into a machine.

use crate::trac_image::body::ImageBody;
use crate::trac_image::content::{Content, content_of};
use crate::trac_image::fitting::{are_distinct, behind_fit_forms};
use crate::trac_image::reading::{behind_form, heads_of, name_of};
use crate::{Forms, Machine, Refused};

/// Takes an image, as `save` gives it, into a machine: its forms with their gaps and pointers and its meta character
/// stand in the place of the machine's own. The strings, the counters and the fate stay. No step is made, so the peak
/// doesn't count what this needs. `save` then gives the same bytes.
///
/// `Refused`, with nothing changed, if the bytes are the image of no forms that can stand in this machine: bytes
/// with another head, version or checksum, or with more behind the last form; two forms of one name; a pointer past its
/// body; a gap with an ordinal of 0 or of more than 16,777,216; more cells than the strings leave.
pub fn load(machine: &mut Machine, image: &[u8]) -> Result<(), Refused>
{
    let room = room_for_forms(machine);
    let Some(content) = fit_content(image, room) else {
        return Err(Refused);
    };
    machine.delete_all();
    machine.set_meta(content.meta);
    define_forms(machine, content.forms, content.count)
}

/// The cells that the strings of a machine leave for forms.
fn room_for_forms(machine: &Machine) -> u64
{
    let size = machine.size();
    let all = u64::from(machine.room()) + cells_of_forms(machine.forms());
    all.saturating_sub(u64::from(size))
}

/// How many cells forms take.
fn cells_of_forms(forms: Forms) -> u64
{
    let mut all = 0;
    for form in forms {
        all += 3 + form.name().len() as u64 + u64::from(form.body_len());
    }
    all
}

/// The content of an image whose forms can stand in a machine with so much room for them, else None.
fn fit_content(image: &[u8], room: u64) -> Option<Content<'_>>
{
    let content = content_of(image)?;
    let rest = behind_fit_forms(content.forms, content.count, room)?;
    if !rest.is_empty() {
        return None;
    }
    if !are_distinct(content.forms, content.count) {
        return None;
    }
    Some(content)
}

/// Defines so many forms at the front of a text in a machine that has none.
fn define_forms(machine: &mut Machine, forms: &[u8], count: u32) -> Result<(), Refused>
{
    let mut rest = forms;
    for i in 0..count {
        let heads = heads_of(rest);
        let mut body = ImageBody::of(rest);
        machine.define_items(name_of(rest), &mut body, heads.body, heads.pointer)?;
        rest = behind_form(rest);
    }
    Ok(())
}
